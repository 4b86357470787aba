<?php
// PHP's class Memcached by a proxy in front of the chain; or over all its servers.
// usage: php php_memcached.php HOST:PORT ..      does some calls, and again after each line of its input

const OPTIONS = [
    Memcached::OPT_BINARY_PROTOCOL => false,
    Memcached::OPT_TCP_NODELAY => true,
    Memcached::OPT_CONNECT_TIMEOUT => 1000,         // milliseconds
    Memcached::OPT_POLL_TIMEOUT => 7000,            // milliseconds: longer than a failover, in which updates wait
];
const OF_SEVERAL = [
    Memcached::OPT_LIBKETAMA_COMPATIBLE => true,
    Memcached::OPT_REMOVE_FAILED_SERVERS => true,   // a server that fails is left out
    Memcached::OPT_SERVER_FAILURE_LIMIT => 1,
    Memcached::OPT_RETRY_TIMEOUT => 1,
    // Seconds until it is tried again. Without this each call of its keys would fail from then on.
    Memcached::OPT_DEAD_TIMEOUT => 60,
];

function connected(array $servers): Memcached
{
    $client = new Memcached('craq');    // kept from page to page, with what it knows of its servers
    if (!$client->getServerList()) {
        $client->setOptions(OPTIONS + (count($servers) > 1 ? OF_SEVERAL : []));
        foreach ($servers as $server) {
            [$host, $port] = explode(':', $server);
            $client->addServer($host, (int) $port);
        }
    }
    return $client;
}

function calls(Memcached $client): void
{
    $check = fn (bool $right, string $call) => $right || throw new Exception("$call: {$client->getResultMessage()}");
    $keys = array_map(fn ($i) => "k$i", range(0, 11));      // of several servers each has some
    foreach ([...$keys, 'n'] as $key) {
        $check($client->delete($key) || $client->getResultCode() == Memcached::RES_NOTFOUND, "delete $key");
    }
    foreach ($keys as $key) {
        $check($client->set($key, [$key]), "set $key");
        $check($client->get($key) === [$key], "get $key");
    }
    $check(count($client->getMulti($keys)) == 12, 'getMulti');
    $item = $client->get('k0', null, Memcached::GET_EXTENDED);
    $check($client->cas($item['cas'], 'k0', 'new'), 'cas');
    $check(!$client->cas($item['cas'], 'k0', 'newer'), 'cas of an old one');
    $check($client->add('n', 5) && !$client->add('n', 6), 'add');
    $check($client->increment('n', 2) === 7, 'increment');
}

$client = connected(array_slice($argv, 1));
do {
    try {
        calls($client);
        echo "works\n";
    } catch (Exception $error) {
        echo 'failed: ', $error->getMessage(), "\n";
    }
} while (fgets(STDIN) !== false);
