<?php
// PHP's sessions over php-memcached as PHP ships them (with lazy_write), and Symfony's, against a server. Usage: php_sessions_calls.php PORT.
// Each has a session of 40 seconds that is read each second for 48 seconds, and never changed.
require '/usr/share/php/Symfony/Component/HttpFoundation/autoload.php';
use Symfony\Component\HttpFoundation\Session\Storage\Handler\MemcachedSessionHandler;
error_reporting(E_ALL & ~E_DEPRECATED & ~E_WARNING);
const SECONDS = 40;
const USED_FOR = 48;

ini_set('session.save_handler', 'memcached');
ini_set('session.save_path', "127.0.0.1:$argv[1]");
ini_set('memcached.sess_binary_protocol', '0');
ini_set('session.lazy_write', '1');
ini_set('session.gc_maxlifetime', (string)SECONDS);
ini_set('session.use_cookies', '0');
ini_set('session.cache_limiter', '');

function user_of_session($set = null) {
    session_id('a-session-of-php');
    session_start();
    if ($set !== null) { $_SESSION['user'] = $set; }
    $user = $_SESSION['user'] ?? null;
    session_write_close();
    $_SESSION = [];
    return $user;
}

$client = new Memcached();
$client->addServer('127.0.0.1', (int)$argv[1]);
$handler = new MemcachedSessionHandler($client, ['prefix' => 'sf-', 'expiretime' => SECONDS]);
$handler->open('', 'PHPSESSID');
$handler->write('a-session', 'user|i:7;');
user_of_session(7);

$kept = ['PHP-sessions' => true, 'Symfony-sessions' => true];
for ($second = 0; $second < USED_FOR; $second++) {
    sleep(1);
    $kept['PHP-sessions'] = $kept['PHP-sessions'] && user_of_session() === 7;
    $text = $handler->read('a-session');
    $handler->updateTimestamp('a-session', $text);
    $kept['Symfony-sessions'] = $kept['Symfony-sessions'] && $text === 'user|i:7;';
}
foreach ($kept as $name => $is_kept) {
    echo "$name works:", $is_kept ? ' kept_while_used' : '', "\n$name fails:", $is_kept ? '' : ' kept_while_used', "\n";
}
