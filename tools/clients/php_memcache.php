<?php
// PHP's older class Memcache over all servers of the chain.
// usage: php php_memcache.php HOST:PORT ..      does some calls, and again after each line of its input

ini_set('memcache.protocol', 'ascii');
ini_set('memcache.hash_strategy', 'consistent');
ini_set('memcache.allow_failover', '1');
$client = new Memcache();
foreach (array_slice($argv, 1) as $server) {
    [$host, $port] = explode(':', $server);
    $client->addServer($host, (int) $port);
}

function calls(Memcache $client): void
{
    for ($i = 0; $i < 12; $i++) {       // each server has some of the keys
        $client->set("k$i", "v$i") || throw new Exception("set k$i");
        $client->get("k$i") === "v$i" || throw new Exception("get k$i");
    }
    count($client->get(['k0', 'k1', 'k2'])) == 3 || throw new Exception('get of three');
    $client->delete('k0') && $client->get('k0') === false || throw new Exception('delete');
    $client->set('n', 5) && $client->increment('n', 2) == 7 || throw new Exception('increment');
}

do {
    try {
        calls($client);
        echo "works\n";
    } catch (Exception $error) {
        echo 'failed: ', $error->getMessage(), "\n";
    }
} while (fgets(STDIN) !== false);
