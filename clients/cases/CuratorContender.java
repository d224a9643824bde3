// A contender by Curator: java -cp JARS CuratorContender HOST:PORT PATH KIND NAMES. README.md says what it prints and reads. Names are Curator's
// alone. An election is that of its LeaderSelector.

import java.io.BufferedReader;
import java.io.InputStreamReader;
import java.util.concurrent.CountDownLatch;
import org.apache.curator.framework.CuratorFramework;
import org.apache.curator.framework.CuratorFrameworkFactory;
import org.apache.curator.framework.recipes.leader.LeaderSelector;
import org.apache.curator.framework.recipes.leader.LeaderSelectorListenerAdapter;
import org.apache.curator.framework.recipes.locks.InterProcessLock;
import org.apache.curator.framework.recipes.locks.InterProcessMutex;
import org.apache.curator.framework.recipes.locks.InterProcessReadWriteLock;
import org.apache.curator.framework.state.ConnectionState;
import org.apache.curator.retry.RetryOneTime;
import org.apache.zookeeper.data.Stat;

public final class CuratorContender {
    private final CuratorFramework client;
    private final String path;
    private final String kind;
    private final CountDownLatch mayEnd = new CountDownLatch(1);
    private final CountDownLatch isOver = new CountDownLatch(1);

    private CuratorContender(CuratorFramework client, String path, String kind) {
        this.client = client;
        this.path = path;
        this.kind = kind;
    }

    private static void say(String words) {
        System.out.println(words);
        System.out.flush();
    }

    private InterProcessLock lock() {
        InterProcessReadWriteLock both = new InterProcessReadWriteLock(client, path);
        return kind.equals("read") ? both.readLock() : kind.equals("write") ? both.writeLock() : new InterProcessMutex(client, path);
    }

    private void hold() throws InterruptedException {
        say("held");
        mayEnd.await();
    }

    private void contend() {
        try {
            InterProcessLock lock = lock();
            lock.acquire();
            try {
                hold();
            } finally {
                lock.release();
            }
        } catch (InterruptedException given) {
            // it has given up, and its node is deleted by then
        } catch (Exception error) {
            say("error: " + error);
        } finally {
            isOver.countDown();
        }
    }

    private static final class Mutex extends InterProcessMutex {
        Mutex(CuratorFramework client, String path) {
            super(client, path);
        }

        String node() {
            return getLockPath();
        }
    }

    private void writeThroughFence(long token) throws Exception {
        Stat stat = new Stat();
        byte[] data = client.getData().storingStatIn(stat).forPath(path + "-fence");
        if (Long.parseLong(new String(data)) > token) {
            say("refused");
        } else {
            client.setData().withVersion(stat.getVersion()).forPath(path + "-fence", Long.toString(token).getBytes());
            say("wrote");
        }
    }

    // Holds the lock for a while, again and again, and writes its token through the fence meanwhile.
    private void work() {
        while (true) {
            try {
                Mutex mutex = new Mutex(client, path);
                mutex.acquire();
                try {
                    long token = client.checkExists().forPath(mutex.node()).getCzxid();
                    for (int i = 0; i < 3; i++) {
                        writeThroughFence(token);
                        Thread.sleep(50);
                    }
                } finally {
                    mutex.release();
                }
            } catch (Exception lost) {
                // another one was faster, or the session is gone
            }
        }
    }

    private LeaderSelector candidate() {
        return new LeaderSelector(client, path, new LeaderSelectorListenerAdapter() {
            @Override
            public void takeLeadership(CuratorFramework given) throws Exception {
                hold();
            }
        });
    }

    private void obey(String command, Runnable giveUp, Runnable end) throws InterruptedException {
        if (command != null && command.equals("release")) {
            mayEnd.countDown();
            end.run();
            say("released");
        } else if (command != null) {
            giveUp.run();
            end.run();
            say("given up");
        }
    }

    private void run(BufferedReader commands) throws Exception {
        if (kind.equals("work")) {
            Thread thread = new Thread(this::work);
            thread.setDaemon(true);
            thread.start();
            commands.readLine();
        } else if (kind.equals("election")) {
            LeaderSelector candidate = candidate();
            candidate.start();
            obey(commands.readLine(), candidate::close, () -> awaitGone(candidate));
        } else {
            Thread thread = new Thread(this::contend);
            thread.setDaemon(true);
            thread.start();
            obey(commands.readLine(), thread::interrupt, this::awaitEnd);
        }
    }

    private void awaitEnd() {
        try {
            isOver.await();
        } catch (InterruptedException none) {
            throw new IllegalStateException(none);
        }
    }

    // A candidate's node is deleted by a thread of the selector, which says so to nobody.
    private void awaitGone(LeaderSelector candidate) {
        try {
            long own = client.getZookeeperClient().getZooKeeper().getSessionId();
            while (isThere(own)) {
                Thread.sleep(5);
            }
        } catch (Exception none) {
            throw new IllegalStateException(none);
        }
    }

    private boolean isThere(long own) throws Exception {
        for (String name : client.getChildren().forPath(path)) {
            Stat stat = client.checkExists().forPath(path + "/" + name);
            if (stat != null && stat.getEphemeralOwner() == own) {
                return true;
            }
        }
        return false;
    }

    public static void main(String[] words) throws Exception {
        if (!words[3].equals("curator")) {
            say("error: Curator has no names of " + words[3]);
            return;
        }
        int timeout = words[2].equals("work") ? 4000 : 10000;
        CuratorFramework client = CuratorFrameworkFactory.newClient(words[0], timeout, timeout, new RetryOneTime(100));
        client.getConnectionStateListenable().addListener((given, state) -> {
            if (state == ConnectionState.LOST) {
                say("lost");
            }
        });
        client.start();
        new CuratorContender(client, words[1], words[2]).run(new BufferedReader(new InputStreamReader(System.in)));
        client.close();
        System.exit(0);
    }
}
