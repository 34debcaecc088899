import io.netty.buffer.ByteBuf;
import io.netty.buffer.ByteBufAllocator;
import io.netty.buffer.PooledByteBufAllocator;
import io.netty.util.ResourceLeakDetector;
import io.netty.util.concurrent.FastThreadLocalThread;
import java.util.concurrent.BrokenBarrierException;
import java.util.concurrent.CyclicBarrier;
import org.jctools.queues.SpscArrayQueue;

/**
 * The workloads w1, w2 and w3 of pool_bench on the pooled allocator of Netty 4.1:
 * Netty WORKLOAD THREADS BLOCKS 1 REPEATS [START]
 *
 * <p>It has the same draws, sizes, clearing, writes and reads as pool_bench, so the same sum, and its line. Its memory
 * is direct, of eight arenas, in chunks of 4 MiB with pages of 8,192 bytes, as pool_bench has it, and its caches are of
 * Netty's default sizes. Nothing is sampled for leaks; Netty's checks of bounds and of released buffers are as they are
 * by default.
 *
 * <p>It doesn't open a pool for each repetition, as pool_bench does: the allocator and the lanes' threads stay, and
 * work unseen first, until the machine code is made. The time is that from the first lane's start to the last one's
 * end, so it has no start of a thread in it. Where a buffer is read through a slice, the slice is an object.
 */
public final class Netty {
    private static final int PAGE = 8192;
    private static final int ORDER = 9;
    private static final int ARENAS = 8;
    private static final int TINY_CACHE = 512;
    private static final int SMALL_CACHE = 256;
    private static final int NORMAL_CACHE = 64;
    private static final int PLACES = 64;
    private static final int MAIL = 32;
    private static final int WARM_REPEATS = 20;
    private static final long WARM_NANOS = 3_000_000_000L;
    private static final int FOUR_TIMES = 0x01010101;

    private final ByteBufAllocator allocator = new PooledByteBufAllocator(
            true, 0, ARENAS, PAGE, ORDER, TINY_CACHE, SMALL_CACHE, NORMAL_CACHE, true);
    private final String work;
    private final int blocks;
    private final int start;
    private final Lane[] lanes;
    private final CyclicBarrier begins;
    private final CyclicBarrier ends;

    private Netty(String work, int threads, int blocks, int start) {
        this.work = work;
        this.blocks = blocks;
        this.start = start;
        lanes = new Lane[threads];
        begins = new CyclicBarrier(threads + 1);
        ends = new CyclicBarrier(threads + 1);
        for (int number = 0; number < threads; number++) {
            lanes[number] = new Lane(number);
        }
        for (Lane lane : lanes) {
            lane.setDaemon(true);
            lane.start();
        }
    }

    /** The numbers that a lane draws. */
    private static final class Draws {
        private long state;

        Draws(long start, long left) {
            state = start % 2147483648L;
            for (long done = 0; done < left; done++) {
                next();
            }
        }

        int next() {
            state = (state * 1103515245L + 12345L) % 2147483648L;
            return (int) (state / 256);
        }

        /** A drawn byte, four times. */
        int marks() {
            return next() % 256 * FOUR_TIMES;
        }

        /** The size of a buffer of w1: 16 to 1,024 bytes. */
        int mixedSize() {
            return 16 + next() % 1009;
        }

        /** The size of a buffer of w3: 16 bytes to 4 MiB, small ones more often. */
        int placesSize() {
            int one = next() % 19;
            int other = next() % 19;
            return 16 + next() % ((16 << Math.min(one, other)) - 15);
        }
    }

    /** A lane's thread: its part of one repetition after another. */
    private final class Lane extends FastThreadLocalThread {
        private final int number;
        private final SpscArrayQueue<ByteBuf> mail = new SpscArrayQueue<>(MAIL);
        private long sum;
        private long began;
        private long ended;

        Lane(int number) {
            this.number = number;
        }

        @Override
        public void run() {
            while (true) {
                long each = work.equals("w3") ? 5 : 2;
                Draws draws = new Draws(start, number * each * blocks);
                await(begins);
                began = System.nanoTime();
                sum = switch (work) {
                    case "w1" -> mixed(draws);
                    case "w2" -> passed(draws, this, lanes[(number + 1) % lanes.length]);
                    default -> places(draws);
                };
                ended = System.nanoTime();
                await(ends);
            }
        }
    }

    private static void await(CyclicBarrier barrier) {
        try {
            barrier.await();
        } catch (InterruptedException | BrokenBarrierException e) {
            throw new IllegalStateException(e);
        }
    }

    private static int sumOf(int bytes) {
        return (bytes & 255) + (bytes >>> 8 & 255) + (bytes >>> 16 & 255) + (bytes >>> 24);
    }

    private ByteBuf newBuffer(int size) {
        ByteBuf buffer = allocator.directBuffer(size, size);
        buffer.setZero(0, size);
        return buffer;
    }

    /** Four bytes written, and the sum of four that are read through the slice of eight from the third on. */
    private static int writeAndRead(ByteBuf buffer, int marks) {
        buffer.setInt(0, marks);
        return sumOf(buffer.slice(2, 8).getInt(0));
    }

    private long mixed(Draws draws) {
        long sum = 0;
        for (int done = 0; done < blocks; done++) {
            ByteBuf buffer = newBuffer(draws.mixedSize());
            sum += writeAndRead(buffer, draws.marks());
            buffer.release();
        }
        return sum;
    }

    /** The same, but a buffer goes to the next lane, and one from the lane before is read and released. */
    private long passed(Draws draws, Lane own, Lane next) {
        long sum = 0;
        for (int done = 0; done < blocks; done++) {
            ByteBuf buffer = newBuffer(draws.mixedSize());
            sum += writeAndRead(buffer, draws.marks());
            while (!next.mail.offer(buffer)) {
                Thread.yield();
            }
            ByteBuf come = own.mail.poll();
            while (come == null) {
                Thread.yield();
                come = own.mail.poll();
            }
            sum += sumOf(come.getInt(0));
            come.release();
        }
        return sum;
    }

    /** At one of 64 places a buffer is released, where there is one, and the last one moves there; a new one comes. */
    private long places(Draws draws) {
        ByteBuf[] held = new ByteBuf[PLACES];
        int count = 0;
        long sum = 0;
        for (int done = 0; done < blocks; done++) {
            int place = draws.next() % PLACES;
            int size = draws.placesSize();
            int marks = draws.marks();
            if (place < count) {
                held[place].release();
                held[place] = held[--count];
            }
            ByteBuf buffer = newBuffer(size);
            held[count++] = buffer;
            buffer.setInt(0, marks);
            buffer.setInt(size - 4, marks);
            sum += sumOf(buffer.getInt(size - 4));
        }
        while (count > 0) {
            held[--count].release();
        }
        return sum;
    }

    /** All lanes at work once. The answer is the nanoseconds that it took. */
    private long repeat() {
        await(begins);
        await(ends);
        long began = Long.MAX_VALUE;
        long ended = Long.MIN_VALUE;
        for (Lane lane : lanes) {
            began = Math.min(began, lane.began);
            ended = Math.max(ended, lane.ended);
        }
        return ended - began;
    }

    private long sum() {
        long sum = 0;
        for (Lane lane : lanes) {
            sum += lane.sum;
        }
        return sum;
    }

    public static void main(String[] words) {
        if (words.length < 5 || words.length > 6 || !words[0].matches("w[123]") || !words[3].equals("1")) {
            System.err.println("usage: Netty WORKLOAD THREADS BLOCKS 1 REPEATS [START]");
            System.exit(2);
        }
        int threads = Integer.parseInt(words[1]);
        int blocks = Integer.parseInt(words[2]);
        int repeats = Integer.parseInt(words[4]);
        int start = words.length == 6 ? Integer.parseInt(words[5]) : 0;
        ResourceLeakDetector.setLevel(ResourceLeakDetector.Level.DISABLED);
        Netty netty = new Netty(words[0], threads, blocks, start);
        long warm = System.nanoTime();
        for (int done = 0; done < WARM_REPEATS || System.nanoTime() - warm < WARM_NANOS; done++) {
            netty.repeat();
        }
        for (int done = 0; done < repeats; done++) {
            long took = netty.repeat();
            System.out.printf("%s %d %d 1 %d 0 %d 0%n", words[0], threads, blocks, took, netty.sum());
        }
    }
}
