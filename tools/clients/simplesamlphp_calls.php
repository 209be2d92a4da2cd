<?php
// SimpleSAMLphp's store of sessions in memcached against a server. Usage: simplesamlphp_calls.php PORT.
error_reporting(0);
$folder = sys_get_temp_dir() . '/simplesamlphp-' . getmypid();
mkdir($folder);
file_put_contents("$folder/config.php", '<?php $config = ' . var_export([
    'baseurlpath' => '/', 'secretsalt' => 'x', 'auth.adminpassword' => 'x', 'timezone' => 'UTC', 'logging.level' => 0, 'logging.handler' => 'errorlog',
    'tempdir' => $folder, 'loggingdir' => $folder, 'memcache_store.servers' => [[['hostname' => '127.0.0.1', 'port' => (int)$argv[1]]]],
    'memcache_store.expires' => 3600,
], true) . ';');
putenv("SIMPLESAMLPHP_CONFIG_DIR=$folder");
require '/usr/share/simplesamlphp/lib/_autoload.php';
$works = $fails = [];
function check($name, $call, $wanted) {
    global $works, $fails;
    try { $got = $call(); } catch (Throwable $error) { $got = $error->getMessage(); }
    if ($got === $wanted) { $works[] = $name; } else { $fails[] = $name; }
}
// (for a key that isn't there it asks each server for its version, and gives up if none has one)
check('a_new_visitor', fn() => SimpleSAML\Memcache::get('sp-none'), null);
check('a_login', fn() => [SimpleSAML\Memcache::set('sp-a', ['user' => 7], time() + 60), SimpleSAML\Memcache::get('sp-a')], [null, ['user' => 7]]);
check('a_logout', fn() => [SimpleSAML\Memcache::delete('sp-a'), SimpleSAML\Memcache::get('sp-a')], [null, null]);
unlink("$folder/config.php");
@rmdir($folder);
echo 'SimpleSAMLphp works: ', implode(' ', $works), "\n";
echo 'SimpleSAMLphp fails: ', implode(' ', $fails), "\n";
