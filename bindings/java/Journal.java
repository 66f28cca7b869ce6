import java.io.IOException;
import java.nio.channels.FileChannel;
import java.nio.charset.StandardCharsets;
import java.nio.file.Files;
import java.nio.file.Path;
import java.nio.file.StandardCopyOption;
import java.nio.file.StandardOpenOption;
import java.nio.ByteBuffer;
import java.time.Duration;
import java.time.Instant;
import java.util.Arrays;
import java.util.List;
import java.util.concurrent.Callable;
import java.util.stream.Collectors;
import zsched.Schedule;

/**
 * A job whose state is in a file, so that a restart or a kill loses no attempt: a recipe to copy.
 *
 * <pre>flock -n FILE.lock java Journal FILE done|busy|killed [POLICY]</pre>
 *
 * The file has the same bytes as those of `Journal` in Python and Go. It is written before each attempt as if that had
 * been killed, and after each one that failed; after a success it is removed. One process at a time may use it.
 */
public final class Journal {
    private static final String HEAD = "zsched journal 1\n";
    private static final List<String> NAMES = List.of("schedule", "state", "attempts", "ended", "begin", "at", "error");

    private final Path file;
    private final long killed;
    private Schedule schedule;
    private long attempts;
    private long ended;
    private Duration begin = Duration.ZERO; // null: it gave up
    private long at = unixTime();
    private String error = "";

    /** Makes a journal of a policy, in which a kill counts as a code. */
    public Journal(Path file, String policy, long killed) throws IOException {
        this.file = file;
        this.killed = killed;
        schedule = new Schedule(policy);
        if (Files.exists(file)) {
            if (!Files.isRegularFile(file)) {
                throw fault("no file");
            }
            read(new String(Files.readAllBytes(file), StandardCharsets.ISO_8859_1), policy);
        }
    }

    private static long unixTime() {
        Instant now = Instant.now();
        return now.getEpochSecond() * 1_000_000_000 + now.getNano();
    }

    private IOException fault(String why) { return new IOException("zsched: journal " + file + ": " + why); }

    /** Returns a number without a sign or leading zeros. */
    private long number(String word) throws IOException {
        try {
            long number = Long.parseUnsignedLong(word);
            if (Long.toUnsignedString(number).equals(word)) {
                return number;
            }
            throw fault("no journal");
        } catch (NumberFormatException other) {
            throw fault("no journal");
        }
    }

    private void read(String text, String policy) throws IOException {
        if (text.isEmpty()) {
            throw fault("empty");
        }
        String first = text.lines().findFirst().orElse("");
        if (HEAD.startsWith(text)) {
            throw fault("cut");
        }
        if (!first.startsWith("zsched journal ") || number(first.substring(15)) != 1) {
            throw fault(first.startsWith("zsched journal ") ? "another version" : "no journal");
        }
        if (!text.startsWith(HEAD) || !text.endsWith("\nend\n")) {
            throw fault("cut");
        }
        String[] lines = text.substring(HEAD.length(), text.length() - 4).split("\n");
        String[] values = new String[NAMES.size()];
        for (int i = 0; i < lines.length; i++) {
            if (lines.length != values.length || !lines[i].startsWith(NAMES.get(i) + " ") || !lines[i].matches("[ -~]*")) {
                throw fault("no journal");
            }
            values[i] = lines[i].substring(NAMES.get(i).length() + 1);
        }
        String[] words = values[1].split(" ", -1);
        long[] state = new long[words.length];
        for (int i = 0; i < words.length; i++) {
            state[i] = number(words[i]);
        }
        attempts = number(values[2]);
        ended = number(values[3]);
        begin = values[4].equals("none") ? null : time(number(values[4]));
        at = number(values[5]);
        error = values[6];
        if (!values[0].equals(policy)) {
            throw fault("another policy");
        }
        try {
            schedule = Schedule.resume(policy, state);
        } catch (Schedule.Fault other) {
            throw fault("another version");
        }
    }

    private static Duration time(long nanos) {
        return Duration.ofSeconds(Long.divideUnsigned(nanos, 1_000_000_000), Long.remainderUnsigned(nanos, 1_000_000_000));
    }

    private static long nanos(Duration time) { return time.getSeconds() * 1_000_000_000 + time.getNano(); }

    /** Writes the file whole, or leaves it as it is. */
    private void write() throws IOException {
        String words = Arrays.stream(schedule.state()).mapToObj(Long::toUnsignedString).collect(Collectors.joining(" "));
        String shown = error.substring(0, Math.min(200, error.length())).replaceAll("[^ -~]", "?");
        String text = HEAD + "schedule " + schedule.text() + "\nstate " + words + "\nattempts " + attempts + "\nended "
            + Long.toUnsignedString(ended) + "\nbegin " + (begin == null ? "none" : Long.toUnsignedString(nanos(begin)))
            + "\nat " + at + "\nerror " + shown + "\nend\n";
        Path made = Path.of(file + ".new");
        try (FileChannel channel = FileChannel.open(made, StandardOpenOption.CREATE, StandardOpenOption.TRUNCATE_EXISTING,
                StandardOpenOption.WRITE)) {
            ByteBuffer bytes = ByteBuffer.wrap(text.getBytes(StandardCharsets.US_ASCII));
            while (bytes.hasRemaining()) {
                channel.write(bytes);
            }
            channel.force(true);
            Files.move(made, file, StandardCopyOption.ATOMIC_MOVE, StandardCopyOption.REPLACE_EXISTING);
        } catch (IOException fault) {
            Files.deleteIfExists(made);
            throw new IOException("zsched: journal " + file + ": " + fault.getMessage(), fault);
        }
        syncFolder();
    }

    /** Makes sure that a name in the file's folder outlasts a power loss. */
    private void syncFolder() throws IOException {
        try (FileChannel folder = FileChannel.open(file.toAbsolutePath().getParent(), StandardOpenOption.READ)) {
            folder.force(true);
        }
    }

    /** Plans after an attempt that ended, and writes it. */
    private void plan(Duration began, Duration end, long code, String why) throws IOException {
        ended = nanos(end);
        begin = schedule.plan(began, end, code).orElse(null);
        at = unixTime();
        error = why;
        write();
    }

    /** Calls a job until it succeeds or its policy gives up, over restarts; what it throws has the code. */
    public <T> T call(Callable<T> job, long code) throws Exception {
        // A clock that was set back waits again, never less.
        Duration since = time(ended).plusNanos(Math.max(0, unixTime() - at));
        long start = System.nanoTime();
        while (begin != null) {
            for (Duration now = since.plusNanos(System.nanoTime() - start); now.compareTo(begin) < 0;
                    now = since.plusNanos(System.nanoTime() - start)) {
                Thread.sleep(begin.minus(now).toMillis() + 1);
            }
            Duration began = since.plusNanos(System.nanoTime() - start);
            Schedule before = schedule.copy();
            attempts++;
            plan(began, began, killed, "killed in attempt " + attempts);
            T value;
            try {
                value = job.call();
            } catch (InterruptedException stopped) {
                throw stopped;
            } catch (Exception failed) {
                schedule = before;
                plan(began, since.plusNanos(System.nanoTime() - start), code, String.valueOf(failed.getMessage()));
                if (begin == null) {
                    throw failed;
                }
                continue;
            }
            Files.delete(file);
            syncFolder();
            return value;
        }
        throw fault("gave up after " + attempts + " attempts: " + error);
    }

    public static void main(String[] words) throws Exception {
        String policy = words.length > 2 ? words[2] : "(spaced(10) && recurs(2))";
        try {
            System.out.println(new Journal(Path.of(words[0]), policy, 0).call(() -> {
                System.out.println("attempt");
                if (words[1].equals("killed")) {
                    Runtime.getRuntime().halt(9);
                }
                if (words[1].equals("busy")) {
                    throw new IllegalStateException("busy");
                }
                return "done";
            }, 503));
        } catch (IOException | IllegalStateException fault) {
            System.out.println(fault.getMessage());
        }
    }
}
