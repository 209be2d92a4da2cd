<?php
// php-memcached (over libmemcached) against a server. Usage: php_memcached_calls.php PORT|PATH.
$works = $fails = [];
function check($name, $got, $wanted) {
    global $works, $fails;
    if ($got === $wanted) { $works[] = $name; } else { $fails[] = $name; }
}
function client() {
    global $argv;
    $client = new Memcached();
    $is_path = $argv[1][0] === '/';
    $client->addServer($is_path ? $argv[1] : '127.0.0.1', $is_path ? 0 : (int)$argv[1]);
    return $client;
}
$client = client();
check('set', $client->set('ph-a', '1'), true);
check('get', $client->get('ph-a'), '1');
check('set_expiration', $client->set('ph-t', 'x', 60) && $client->get('ph-t') === 'x', true);
check('add', [$client->add('ph-a', '2'), $client->add('ph-b', '2')], [false, true]);
check('replace', [$client->replace('ph-b', '3'), $client->replace('ph-none', '3')], [true, false]);
check('setMulti', $client->setMulti(['ph-m1' => '1', 'ph-m2' => '2']), true);
check('getMulti', $client->getMulti(['ph-m1', 'ph-none', 'ph-m2']), ['ph-m1' => '1', 'ph-m2' => '2']);
check('increment', [$client->set('ph-n', 5), $client->increment('ph-n', 37)], [true, 42]);
check('decrement', $client->decrement('ph-n', 40), 2);
check('delete', [$client->delete('ph-a'), $client->delete('ph-a'), $client->get('ph-a')], [true, false, false]);
check('deleteMulti', $client->deleteMulti(['ph-m1', 'ph-m2']), ['ph-m1' => true, 'ph-m2' => true]);
$got = $client->get('ph-n', null, Memcached::GET_EXTENDED);
check('cas', is_array($got) && $client->cas($got['cas'], 'ph-n', 9) && $client->get('ph-n') == 9, true);
check('array_value', $client->set('ph-list', [1, 2]) && $client->get('ph-list') === [1, 2], true);
check('getDelayed', $client->getDelayed(['ph-b']) && $client->fetchAll()[0]['value'] === '3', true);
$quiet = client();
$quiet->setOption(Memcached::OPT_NO_BLOCK, true);
$quiet->setOption(Memcached::OPT_TCP_NODELAY, true);
check('no_block', $quiet->set('ph-q', 'x') && $quiet->get('ph-q') === 'x', true);
$ketama = client();
$ketama->setOption(Memcached::OPT_LIBKETAMA_COMPATIBLE, true);
check('libketama', $ketama->set('ph-k', 'x') && $ketama->get('ph-k') === 'x', true);
$plain = client();
$plain->setOption(Memcached::OPT_COMPRESSION, false);
$page = str_repeat('z', 900000);
check('large', $plain->set('ph-p', $page) && $plain->get('ph-p') === $page, true);
check('append', $plain->append('ph-b', '4') && $plain->get('ph-b') === '34', true);
check('touch', client()->touch('ph-b', 60), true);
$binary = client();
$binary->setOption(Memcached::OPT_BINARY_PROTOCOL, true);
check('binary', $binary->set('ph-bin', 'x'), true);
$version = client()->getVersion();
check('getVersion', is_array($version) && count($version) === 1 && current($version) !== '255.255.255', true);
$stats = client()->getStats();
check('getStats', is_array($stats) && count((array)current($stats)) > 5, true);
$names = [];
for ($n = 0; $n < 1000; $n++) { $names[sprintf('a-name-of-24-bytes-%05d', $n)] = $n; }
$client->setMulti($names);
$got = client()->getMulti(array_keys($names));
check('getMulti_1000', $got == $names, true);
check('flush', client()->flush(), true);
echo 'php-memcached works: ', implode(' ', $works), "\n";
echo 'php-memcached fails: ', implode(' ', $fails), "\n";
