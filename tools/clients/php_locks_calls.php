<?php
// Locks of PHP's sessions over php-memcache, and Laravel's locks, limits and values, against a
// server that keeps TTLs to the second. Usage: php_locks_calls.php PORT.
require '/usr/share/php/Illuminate/Cache/autoload.php';
use Illuminate\Cache\{MemcachedStore, RateLimiter, Repository};
error_reporting(E_ALL & ~E_DEPRECATED & ~E_WARNING);
$port = (int)$argv[1];
function report($client, $calls) {
    echo "$client works: ", implode(' ', array_keys(array_filter($calls))), "\n";
    echo "$client fails: ", implode(' ', array_keys(array_filter($calls, fn($it) => !$it))), "\n";
}

// Two requests of one session count it up; the first one holds its lock of 15 seconds, the default,
// for 12.
$settings = ['session.save_handler' => 'memcache', 'session.save_path' => "tcp://127.0.0.1:$port",
             'session.use_cookies' => '0', 'session.cache_limiter' => '',
             'memcache.session_redundancy' => '1'];
foreach ($settings as $name => $value) { ini_set($name, $value); }
function count_up($seconds) {
    session_id('a-session-of-php');
    session_start();
    $count = $_SESSION['count'] ?? 0;
    sleep($seconds);
    $_SESSION['count'] = $count + 1;
    session_write_close();
    return $count + 1;
}
$second = pcntl_fork();
if ($second === 0) {
    sleep(1);
    count_up(0);
    exit(0);
}
count_up(12);
pcntl_waitpid($second, $status);
report('php-memcache-sessions', ['both_counted' => count_up(0) === 3]);

$client = new Memcached();
$client->addServer('127.0.0.1', $port);
$store = new MemcachedStore($client);
$limiter = new RateLimiter(new Repository($store));
$lock = fn() => $store->lock('la-lock', 9)->get();
$passed = 0;
for ($turn = 0; $turn < 300; $turn++) {
    $passed += !$limiter->tooManyAttempts('la-limit', 100);
    $limiter->hit('la-limit', 60);
}
// (what others see of a lock and a value in the first seven and a half seconds of nine)
$began = microtime(true);
$store->put('la-value', 'x', 9);
$was_locked = $lock();
$was_kept = true;
while (microtime(true) < $began + 7.5) {
    $was_locked = $was_locked && !$lock();
    $was_kept = $was_kept && $store->get('la-value') === 'x';
    usleep(300000);
}
sleep(3);
report('Laravel', [
    'lock_of_9_seconds' => $was_locked && $lock(),
    'value_of_9_seconds' => $was_kept && $store->get('la-value') === null,
    '100_of_300' => $passed === 100,
]);
