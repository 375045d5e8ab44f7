import java.io.IOException;
import java.lang.management.GarbageCollectorMXBean;
import java.lang.management.ManagementFactory;
import java.lang.ref.PhantomReference;
import java.lang.ref.ReferenceQueue;
import java.lang.ref.SoftReference;
import java.lang.ref.WeakReference;
import java.util.ArrayList;
import java.util.HashMap;
import java.util.List;
import java.util.Map;
import java.util.Random;

/**
 * Fills its heap, plants six objects of known strength and a leak, and waits to be dumped.
 *
 * <p>Its word is how many bytes of dump the filling should take, roughly. It prints {@code ready} when all is planted,
 * and waits for a line. Then it prints {@code collections} and how many collections there were: where that isn't 0, the
 * virtual machine may have cleared a reference that the dump should show.
 *
 * <p>Each planted object is the one instance of its class.
 */
public final class Planted {
    static Link strong;
    static SoftReference<PlantedSoft> soft;
    static WeakReference<PlantedWeak> weak;
    static PhantomReference<PlantedPhantom> phantom;
    static final ReferenceQueue<Object> queue = new ReferenceQueue<>();

    /** So that the finalizers aren't empty: for an empty one the virtual machine makes no reference. */
    static int finalized;

    private Planted() {
    }

    /** Makes the planted objects. None of them is in a frame when this has returned. */
    private static void plant() {
        strong = new Link(new Link(new PlantedStrong()));
        soft = new SoftReference<>(new PlantedSoft());
        weak = new WeakReference<>(new PlantedWeak());
        phantom = new PhantomReference<>(new PlantedPhantom(), queue);
        new PlantedFinal();
        new PlantedLost();
    }

    /** Calls itself, so that what earlier calls left of their frames is written over. */
    private static long writeOver(int depth, long a, long b, long c) {
        long d = a ^ b;
        long e = b + c;
        return depth == 0 ? d + e : writeOver(depth - 1, d, e, a) + c;
    }

    private static long collections() {
        long count = 0;
        for (GarbageCollectorMXBean collector : ManagementFactory.getGarbageCollectorMXBeans()) {
            count += collector.getCollectionCount();
        }
        return count;
    }

    public static void main(String[] words) throws IOException {
        Filling.fill(Long.parseLong(words[0]));
        Listeners.leak();
        plant();
        long number = writeOver(500, 1, 2, 3);
        System.out.println(number == 0 ? "ready " : "ready");
        if (System.in.read() < 0) {
            return;
        }
        System.out.println("collections " + collections());
    }
}

/** Refers to one object. */
final class Link {
    final Object next;

    Link(Object next) {
        this.next = next;
    }
}

/** Held by a chain from a static field. */
final class PlantedStrong {
}

/** Held by a SoftReference alone. */
final class PlantedSoft {
}

/** Held by a WeakReference alone. */
final class PlantedWeak {
}

/** Held alone by the reference that the virtual machine makes for its finalizer. */
final class PlantedFinal {
    @Override
    protected void finalize() {
        Planted.finalized++;
    }
}

/** Held by a PhantomReference alone. */
final class PlantedPhantom {
}

/** Held by nothing. */
final class PlantedLost {
}

/** A leak: a session that is over, but still in a list of listeners that a static map holds. */
final class Listeners {
    static final Map<String, List<Object>> byTopic = Map.of("login", new ArrayList<>(2));

    private Listeners() {
    }

    static void leak() {
        Session session = new Session("ada");
        byTopic.get("login").add(session);
        session.isOpen = false;
    }
}

/** A session of a user. */
final class Session {
    final String user;
    final long[] visits = new long[8];
    boolean isOpen = true;

    Session(String user) {
        this.user = new String(user.toCharArray());
    }
}

/** A node of a linked list. */
final class Node {
    final Node next;
    final Object value;
    final int number;

    Node(Node next, Object value, int number) {
        this.next = next;
        this.value = value;
        this.number = number;
    }
}

/** Holds something until its finalizer has run. */
final class Closing {
    final Object what;

    Closing(Object what) {
        this.what = what;
    }

    @Override
    protected void finalize() {
        Planted.finalized++;
    }
}

/**
 * Many small objects, made in parts: linked nodes, maps with entries, boxed numbers, texts and small arrays. Most parts
 * are held strongly, some through a reference of another kind, some not at all.
 */
final class Filling {
    static final List<Object> held = new ArrayList<>();
    static final Random random = new Random(1);

    /** One list through all parts that are held strongly. */
    static Node nodes;

    /** Objects of all those parts, to be referred to from anywhere. */
    static final Object[] samples = new Object[1 << 16];

    /** How many bytes of a dump with 8-byte identifiers the objects so far take. */
    static long bytes;

    private Filling() {
    }

    static void fill(long wanted) {
        for (int number = 0; bytes < wanted; number++) {
            hold(number);
        }
    }

    /** Makes a part, and holds it in a way that goes by its number. */
    private static void hold(int number) {
        switch (number % 32) {
            case 3, 19 -> held.add(new SoftReference<>(part(null)));
            case 7, 15, 23 -> part(null);
            case 11, 27 -> held.add(new WeakReference<>(part(null)));
            case 13 -> new Closing(part(null));
            case 29 -> held.add(new PhantomReference<>(part(null), Planted.queue));
            default -> {
                Object[] part = part(nodes);
                nodes = (Node) part[0];
                held.add(part);
                samples[random.nextInt(samples.length)] = part[1];
            }
        }
    }

    /** A part whose nodes go on with others. */
    private static Object[] part(Node next) {
        bytes += objects(1, 4) + 4 * 33;
        return new Object[] {linked(next), mapped(), boxed(), arrays()};
    }

    /** What so many objects with so many references each take. */
    private static long objects(long count, long references) {
        return count * (25 + 8 * references);
    }

    private static Object sample() {
        return samples[random.nextInt(samples.length)];
    }

    private static Node linked(Node next) {
        bytes += objects(300, 2) + 300 * 4;
        Node node = next;
        for (int i = 0; i < 300; i++) {
            node = new Node(node, sample(), i);
        }
        return node;
    }

    private static Map<Object, Object> mapped() {
        bytes += objects(100, 3) + 100 * 4 + objects(200, 1) + 200 * 28 + 512 * 8;
        Map<Object, Object> map = new HashMap<>();
        for (int i = 0; i < 100; i++) {
            Integer key = random.nextInt();
            map.put(key, Integer.toHexString(key));
        }
        return map;
    }

    private static List<Object> boxed() {
        bytes += objects(200, 0) + 200 * 8 + 300 * 8;
        List<Object> list = new ArrayList<>();
        for (int i = 0; i < 200; i++) {
            list.add(random.nextLong());
        }
        return list;
    }

    private static Object[] arrays() {
        bytes += 100 * 18 + 400 * 4 + objects(100, 2) + 100 * 8;
        Object[] all = new Object[200];
        for (int i = 0; i < all.length; i += 2) {
            all[i] = new int[random.nextInt(9)];
            all[i + 1] = new Object[] {all[i], sample()};
        }
        bytes += objects(1, all.length);
        return all;
    }
}
