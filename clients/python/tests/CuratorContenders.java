// Contenders of Curator, for real_server.py:
//
//   java -cp JARS CuratorContenders.java HOST:PORT/ROOT PATH JUDGE COUNT ROUNDS lock|readwrite [FILE]
//
// COUNT threads, each with a client of its own, take the lock at PATH for ROUNDS rounds. Each holder of an exclusive lock makes the node
// JUDGE and deletes it again: it fails if the node is there. The exit status says whether none has failed. A holder of a lock, which is not one
// of a pair, adds lines to FILE: `NAME holds CZXID`, with the czxid of its node, when it holds, and `NAME leaves` before it leaves.

import java.nio.file.Files;
import java.nio.file.Path;
import java.nio.file.StandardOpenOption;
import java.util.concurrent.ExecutorService;
import java.util.concurrent.Executors;
import java.util.concurrent.Future;
import java.util.ArrayList;
import java.util.List;
import org.apache.curator.framework.CuratorFramework;
import org.apache.curator.framework.CuratorFrameworkFactory;
import org.apache.curator.framework.recipes.locks.InterProcessLock;
import org.apache.curator.framework.recipes.locks.InterProcessMutex;
import org.apache.curator.framework.recipes.locks.InterProcessReadWriteLock;
import org.apache.curator.retry.RetryOneTime;

public final class CuratorContenders {
    private final String hosts;
    private final String path;
    private final String judge;
    private final int rounds;
    private final boolean isShared;
    private final Path file;

    /** A lock that says which node its holder has. */
    private static final class Mutex extends InterProcessMutex {
        Mutex(CuratorFramework client, String path) {
            super(client, path);
        }

        String node() {
            return getLockPath();
        }
    }

    private CuratorContenders(String[] words) {
        hosts = words[0];
        path = words[1];
        judge = words[2];
        rounds = Integer.parseInt(words[4]);
        isShared = words[5].equals("readwrite");
        file = words.length > 6 ? Path.of(words[6]) : null;
    }

    public static void main(String[] words) throws Exception {
        CuratorContenders contenders = new CuratorContenders(words);
        int count = Integer.parseInt(words[3]);
        ExecutorService pool = Executors.newFixedThreadPool(count);
        List<Future<Void>> ends = new ArrayList<>();
        for (int number = 0; number < count; number++) {
            ends.add(pool.submit(() -> contenders.contend()));
        }
        try {
            for (Future<Void> end : ends) {
                end.get();
            }
            System.out.println("done");
            System.exit(0);
        } catch (Exception failed) {
            failed.printStackTrace();
            System.exit(1);
        }
    }

    private Void contend() throws Exception {
        try (CuratorFramework client = CuratorFrameworkFactory.newClient(hosts, new RetryOneTime(100))) {
            client.start();
            InterProcessReadWriteLock both = new InterProcessReadWriteLock(client, path);
            for (int round = 0; round < rounds; round++) {
                boolean reads = isShared && round % 2 == 1;
                hold(client, reads ? both.readLock() : isShared ? both.writeLock() : new Mutex(client, path), reads);
            }
        }
        return null;
    }

    private void hold(CuratorFramework client, InterProcessLock lock, boolean reads) throws Exception {
        lock.acquire();
        try {
            if (reads) {
                if (client.checkExists().forPath(judge) != null) {
                    throw new IllegalStateException("one reads while another one writes");
                }
            } else {
                client.create().forPath(judge);
            }
            if (file != null) {
                tell("holds " + client.checkExists().forPath(((Mutex) lock).node()).getCzxid());
            }
            Thread.sleep(file != null ? 20 : 2);
            if (file != null) {
                tell("leaves");
            }
            if (!reads) {
                client.delete().forPath(judge);
            }
        } finally {
            lock.release();
        }
    }

    private void tell(String word) throws Exception {
        Files.writeString(file, Thread.currentThread().getName() + " " + word + "\n", StandardOpenOption.APPEND);
    }
}
