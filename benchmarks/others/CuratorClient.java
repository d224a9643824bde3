import java.nio.charset.StandardCharsets;
import java.util.List;
import java.util.concurrent.TimeUnit;
import java.util.concurrent.atomic.AtomicInteger;
import org.apache.curator.framework.CuratorFramework;
import org.apache.curator.framework.CuratorFrameworkFactory;
import org.apache.curator.framework.recipes.cache.ChildData;
import org.apache.curator.framework.recipes.cache.CuratorCache;
import org.apache.curator.framework.recipes.locks.InterProcessMutex;
import org.apache.curator.retry.RetryOneTime;
import org.apache.zookeeper.ZooKeeper;

/**
 * What Curator says of a lock after its session has expired, and what its cache shows while three nodes change together.
 *
 * <p>usage: CuratorClient PORT lock | CuratorClient PORT tree CALLS
 */
public final class CuratorClient {
    private static final List<String> NODES = List.of("/tree/one", "/tree/two", "/tree/three");
    private static final int TIMEOUT_MS = 10_000;

    private CuratorClient() {}

    public static void main(String[] words) throws Exception {
        String server = "127.0.0.1:" + words[0];
        if (words[1].equals("lock")) {
            holdAfterExpiry(server);
        } else {
            watchTree(server, Integer.parseInt(words[2]));
        }
    }

    private static CuratorFramework started(String server) throws InterruptedException {
        CuratorFramework client = CuratorFrameworkFactory.newClient(server, TIMEOUT_MS, TIMEOUT_MS, new RetryOneTime(100));
        client.start();
        client.blockUntilConnected();
        return client;
    }

    /** Ends the session of a client at the server, as an expiry does: another connection takes the session up and closes it. */
    private static void endSession(CuratorFramework client, String server) throws Exception {
        ZooKeeper own = client.getZookeeperClient().getZooKeeper();
        new ZooKeeper(server, TIMEOUT_MS, event -> {}, own.getSessionId(), own.getSessionPasswd()).close(TIMEOUT_MS);
    }

    private static void holdAfterExpiry(String server) throws Exception {
        try (CuratorFramework first = started(server);
                CuratorFramework second = started(server)) {
            InterProcessMutex lock = new InterProcessMutex(first, "/lock-of-curator");
            InterProcessMutex other = new InterProcessMutex(second, "/lock-of-curator");
            long session = first.getZookeeperClient().getZooKeeper().getSessionId();
            lock.acquire();
            endSession(first, server);
            boolean isTaken = other.acquire(30, TimeUnit.SECONDS);
            while (first.getZookeeperClient().getZooKeeper().getSessionId() == session || !first.getZookeeperClient().isConnected()) {
                Thread.sleep(10);
            }
            System.out.println("another holds: " + isTaken + "; the first says: " + lock.isAcquiredInThisProcess());
        }
    }

    private static void watchTree(String server, int calls) throws Exception {
        AtomicInteger shown = new AtomicInteger();
        AtomicInteger torn = new AtomicInteger();
        try (CuratorFramework client = started(server);
                CuratorCache cache = CuratorCache.build(client, "/tree")) {
            cache.listenable().addListener((type, old, data) -> {
                List<String> texts = NODES.stream().map(path -> cache.get(path).map(CuratorClient::text).orElse("")).toList();
                if (!texts.contains("") && shown.get() < calls) {
                    shown.incrementAndGet();
                    torn.addAndGet(texts.stream().distinct().count() > 1 ? 1 : 0);
                }
            });
            cache.start();
            while (shown.get() < calls) {
                Thread.sleep(10);
            }
        }
        System.out.println(torn + " of " + shown);
    }

    private static String text(ChildData node) {
        return new String(node.getData(), StandardCharsets.UTF_8);
    }
}
