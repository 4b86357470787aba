import java.io.BufferedReader;
import java.io.InputStreamReader;
import java.util.concurrent.TimeUnit;
import net.spy.memcached.AddrUtil;
import net.spy.memcached.CASResponse;
import net.spy.memcached.ConnectionFactoryBuilder;
import net.spy.memcached.FailureMode;
import net.spy.memcached.MemcachedClient;

/** Java's spymemcached over all servers of the chain.
    usage: java Spymemcached HOST:PORT ..      does some calls, and again after each line of its input */
class Spymemcached {
    static MemcachedClient connected(String[] servers) throws Exception {
        return new MemcachedClient(
            new ConnectionFactoryBuilder()
                .setProtocol(ConnectionFactoryBuilder.Protocol.TEXT)
                .setFailureMode(FailureMode.Redistribute)   // the keys of a server that fails go to the others
                .setOpTimeout(7000)     // milliseconds: longer than a failover, in which updates wait
                .build(),
            AddrUtil.getAddresses(String.join(" ", servers)));
    }

    static void check(boolean right, String call) throws Exception {
        if (!right) throw new Exception(call);
    }

    static void calls(MemcachedClient client) throws Exception {
        for (int i = 0; i < 12; i++) {      // each server has some of the keys
            check(client.set("k" + i, 0, "v" + i).get(7, TimeUnit.SECONDS), "set");
            check(("v" + i).equals(client.get("k" + i)), "get");
        }
        check(client.getBulk("k0", "k1", "k2").size() == 3, "get of three");
        long unique = client.gets("k0").getCas();
        check(client.cas("k0", unique, "new") == CASResponse.OK, "cas");
        check(client.cas("k0", unique, "newer") == CASResponse.EXISTS, "cas of an old one");
        client.delete("n").get(7, TimeUnit.SECONDS);
        check(client.add("n", 0, "5").get(7, TimeUnit.SECONDS) && client.incr("n", 2) == 7, "incr");
    }

    public static void main(String[] servers) throws Exception {
        MemcachedClient client = connected(servers);
        BufferedReader lines = new BufferedReader(new InputStreamReader(System.in));
        do {
            try {
                calls(client);
                System.out.println("works");
            } catch (Exception error) {
                System.out.println("failed: " + error);
            }
        } while (lines.readLine() != null);
        client.shutdown();
    }
}
