<?php
// Symfony's cache adapter for memcached (over php-memcached) against a server, with its own options and with the text protocol. Usage:
// symfony_calls.php PORT.
require '/usr/share/php/Symfony/Component/Cache/autoload.php';
use Symfony\Component\Cache\Adapter\MemcachedAdapter;
error_reporting(E_ALL & ~E_DEPRECATED);

function check(&$names, $name, $call, $wanted) {
    try { $got = $call(); } catch (Throwable $error) { $got = get_class($error); }
    $names[$got === $wanted ? 'works' : 'fails'][] = $name;
}

function stored($cache, $key, $value, $seconds) {
    $item = $cache->getItem($key);
    $item->set($value);
    $item->expiresAfter($seconds);
    return $cache->save($item) && $cache->getItem($key)->get() === $value;
}

foreach (['Symfony' => '', 'Symfony-text' => '?binary_protocol=0'] as $title => $options) {
    $names = ['works' => [], 'fails' => []];
    $began = microtime(true);
    $make = fn() => new MemcachedAdapter(MemcachedAdapter::createConnection("memcached://127.0.0.1:$argv[1]$options"), 'app');
    check($names, 'save', fn() => stored($make(), 'a', 'text', 3600), true);
    if (!$names['fails']) {
        $cache = $make();
        check($names, 'array', fn() => stored($cache, 'list', [1, 'two' => 2], 60), true);
        check($names, 'get', fn() => $cache->get('computed', fn() => 42) . $cache->get('computed', fn() => 43), '4242');
        $hits = fn() => array_keys(array_filter(array_map(fn($it) => $it->isHit(), iterator_to_array($cache->getItems(['a', 'none', 'list'])))));
        check($names, 'get_items', $hits, ['a', 'list']);
        check($names, 'has', fn() => [$cache->hasItem('a'), $cache->hasItem('none')], [true, false]);
        check($names, 'delete', fn() => [$cache->deleteItems(['a', 'none']), $cache->hasItem('a')], [true, false]);
        check($names, 'clear', fn() => [stored($make(), 'c', 1, 60), $make()->clear(), $make()->hasItem('c')], [true, true, false]);
    }
    // (a client that is told nothing waits for seconds)
    check($names, 'in_time', fn() => microtime(true) - $began < 3, true);
    foreach ($names as $verb => $calls) { echo "$title $verb: ", implode(' ', $calls), "\n"; }
}
