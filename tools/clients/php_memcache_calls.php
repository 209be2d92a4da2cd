<?php
// php-memcache (a client of its own) against a server. Usage: php_memcache_calls.php PORT.
$works = $fails = [];
function check($name, $got, $wanted) {
    global $works, $fails;
    if ($got === $wanted) { $works[] = $name; } else { $fails[] = $name; }
}
function client() {
    global $argv;
    $client = new Memcache();
    $client->addServer('127.0.0.1', (int)$argv[1]);
    return $client;
}
$client = client();
check('set', @$client->set('pc-a', '1'), true);
check('get', @$client->get('pc-a'), '1');
check('get_array', @$client->get(['pc-a', 'pc-none']), ['pc-a' => '1']);
check('set_expire', @$client->set('pc-t', 'x', 0, 60) && $client->get('pc-t') === 'x', true);
check('add', [@$client->add('pc-a', '2'), @$client->add('pc-b', '2')], [false, true]);
check('replace', @$client->replace('pc-b', '3'), true);
check('increment', [@$client->set('pc-n', 5), @$client->increment('pc-n', 37)], [true, 42]);
check('decrement', @$client->decrement('pc-n', 40), 2);
check('delete', [@$client->delete('pc-a'), @$client->get('pc-a')], [true, false]);
check('getVersion', is_string(@client()->getVersion()), true);
check('flush', @client()->flush(), true);
echo 'php-memcache works: ', implode(' ', $works), "\n";
echo 'php-memcache fails: ', implode(' ', $fails), "\n";
