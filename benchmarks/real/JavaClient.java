import java.lang.management.ManagementFactory;
import java.nio.file.Files;
import java.nio.file.Path;
import java.util.concurrent.CountDownLatch;
import java.util.concurrent.Semaphore;
import org.apache.zookeeper.AsyncCallback.DataCallback;
import org.apache.zookeeper.AsyncCallback.StatCallback;
import org.apache.zookeeper.KeeperException.Code;
import org.apache.zookeeper.WatchedEvent;
import org.apache.zookeeper.Watcher;
import org.apache.zookeeper.ZooKeeper;

/**
 * The rows over ZooKeeper's Java client: the same words and lines as dirwolleu.c, without {@code make} and {@code change}. Its blocking
 * methods where one call waits at a time, else the others.
 *
 * <p>usage: JavaClient PORT ROW COUNT TIMES
 */
public final class JavaClient {
    private static final String NODE = "/real";
    private static final byte[] DATA = "0123456789".repeat(10).getBytes();
    private static final int AT_ONCE = 1000;
    private static final int TIMEOUT_MS = 30_000;

    private final Semaphore connected = new Semaphore(0);
    private final ZooKeeper client;

    private JavaClient(String port) throws Exception {
        client = new ZooKeeper("127.0.0.1:" + port, TIMEOUT_MS, this::onState);
        connected.acquire();
    }

    public static void main(String[] words) throws Exception {
        JavaClient session = new JavaClient(words[0]);
        int count = Integer.parseInt(words[2]);
        int times = Integer.parseInt(words[3]);
        switch (words[1]) {
            case "read" -> session.measureOver(false, count, times);
            case "write" -> session.measureOver(true, count, times);
            case "watch" -> session.measureWatches(count);
            case "reconnect" -> session.measureReconnect(count);
            default -> throw new IllegalArgumentException(words[1]);
        }
        session.client.close();
    }

    /** A moment, and the processor time of this process until then, in nanoseconds. */
    private record Mark(long wall, long processor) {
        static Mark now() {
            var system = (com.sun.management.OperatingSystemMXBean) ManagementFactory.getOperatingSystemMXBean();
            return new Mark(System.nanoTime(), system.getProcessCpuTime());
        }
    }

    private static void tell(Mark since) throws Exception {
        Mark now = Mark.now();
        String peak = Files.readAllLines(Path.of("/proc/self/status")).stream()
                .filter(line -> line.startsWith("VmHWM:"))
                .findFirst().orElseThrow().replaceAll("[^0-9]", "");
        System.out.println("took " + (now.wall - since.wall) / 1000 + " " + (now.processor - since.processor) / 1000 + " " + peak);
    }

    private void onState(WatchedEvent event) {
        if (event.getType() == Watcher.Event.EventType.None && event.getState() == Watcher.Event.KeeperState.SyncConnected) {
            connected.release();
        }
    }

    private static void answered(int code, CountDownLatch left) {
        if (code != Code.OK.intValue()) {
            throw new IllegalStateException("a call was answered " + code);
        }
        left.countDown();
    }

    private void read(String path, Watcher watcher, CountDownLatch left) {
        DataCallback callback = (code, at, context, data, stat) -> answered(code, left);
        client.getData(path, watcher, callback, null);
    }

    private void write(String path, CountDownLatch left) {
        StatCallback callback = (code, at, context, stat) -> answered(code, left);
        client.setData(path, DATA, -1, callback, null);
    }

    private void askAtOnce(boolean write, int count) throws Exception {
        CountDownLatch left = new CountDownLatch(count);
        for (int i = 0; i < count; i++) {
            if (write) {
                write(NODE, left);
            } else {
                read(NODE, null, left);
            }
        }
        left.await();
    }

    private void askOver(boolean write, int count, int times) throws Exception {
        for (int i = 0; i < times; i++) {
            if (count > 1) {
                askAtOnce(write, count);
            } else if (write) {
                client.setData(NODE, DATA, -1);
            } else {
                client.getData(NODE, false, null);
            }
        }
    }

    private void readEach(Watcher watcher, int count) throws Exception {
        for (int first = 0; first < count; first += AT_ONCE) {
            readSome(watcher, first, Math.min(AT_ONCE, count - first));
        }
    }

    private void readSome(Watcher watcher, int first, int count) throws Exception {
        CountDownLatch left = new CountDownLatch(count);
        for (int number = first; number < first + count; number++) {
            read(NODE + "/" + number, watcher, left);
        }
        left.await();
    }

    private void measureOver(boolean write, int count, int times) throws Exception {
        askOver(write, count, (times + 9) / 10);
        Mark since = Mark.now();
        askOver(write, count, times);
        tell(since);
    }

    private void measureWatches(int count) throws Exception {
        CountDownLatch left = new CountDownLatch(count);
        readEach(null, count);
        Mark since = Mark.now();
        readEach(event -> {
            if (event.getType() == Watcher.Event.EventType.NodeDataChanged) {
                left.countDown();
            }
        }, count);
        tell(since);
        since = Mark.now();
        System.out.println("ready");
        left.await();
        tell(since);
    }

    /** The server answers in order, so the read that is asked last is answered once the watches are set. */
    private void measureReconnect(int count) throws Exception {
        readEach(event -> { }, count);
        Mark since = Mark.now();
        System.out.println("ready");
        connected.acquire();
        client.getData(NODE, false, null);
        tell(since);
    }
}
