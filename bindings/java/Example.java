import java.io.IOException;
import java.net.InetAddress;
import java.net.ServerSocket;
import java.net.Socket;
import java.nio.charset.StandardCharsets;
import zsched.Retry;

/** A real retry: a client calls a server on this machine until it is ready. It is busy at first. */
public final class Example {
    private static final String SCHEDULE = "((exponential(20) || spaced(100)) && recurs(5))";
    private static final int BUSY = 3;

    /** Sends "busy" to the first clients, and "ready" to the next one. */
    private static void serve(ServerSocket server) {
        for (int number = 0; number <= BUSY; number++) {
            try (Socket client = server.accept()) {
                String text = number < BUSY ? "busy" : "ready";
                client.getOutputStream().write(text.getBytes(StandardCharsets.US_ASCII));
            } catch (IOException gone) {
                return;
            }
        }
    }

    /** Returns the server's text, or throws an error if it is busy. */
    private static String fetch(ServerSocket server) throws IOException {
        try (Socket client = new Socket(server.getInetAddress(), server.getLocalPort())) {
            String text = new String(client.getInputStream().readAllBytes(), StandardCharsets.US_ASCII);
            if (text.equals("busy")) {
                throw new IOException("503");
            }
            return text;
        }
    }

    public static void main(String[] words) throws Exception {
        ServerSocket server = new ServerSocket(0, 50, InetAddress.getLoopbackAddress());
        Thread serving = new Thread(() -> serve(server));
        serving.setDaemon(true);
        serving.start();
        long begun = System.nanoTime();
        int[] attempts = {0};
        String text = Retry.of(SCHEDULE).on(IOException.class::isInstance).inputOf(error -> 503).call(() -> {
            attempts[0]++;
            return fetch(server);
        });
        long waited = (System.nanoTime() - begun) / 1_000_000;
        serving.join();
        System.out.println(text + " after " + attempts[0] + " attempts");
        if (!text.equals("ready") || attempts[0] != BUSY + 1 || waited < 140) {
            throw new AssertionError(text + ", " + attempts[0] + " attempts, " + waited + " ms");
        }
    }
}
