import java.io.BufferedReader;
import java.io.IOException;
import java.io.InputStreamReader;
import java.nio.charset.StandardCharsets;
import java.nio.file.Files;
import java.nio.file.Path;

/**
 * What the peers in Java share: how they are asked and how they answer, which is
 * written in peer.h.
 */
abstract class Peer {
    /** Its name and version, and those of what it runs on. */
    abstract String version();

    /** One call: the number of nodes that the expression selects in the document. */
    abstract long selected(byte[] document, String expression) throws Exception;

    /** Answers requests until the input ends. */
    final void serve() throws Exception {
        System.out.println(version() + ", Java " + System.getProperty("java.version"));
        BufferedReader requests =
            new BufferedReader(new InputStreamReader(System.in, StandardCharsets.UTF_8));
        byte[] document = null;
        for (String line = requests.readLine(); line != null; line = requests.readLine()) {
            String[] words = line.split(" ", 2);
            switch (words[0]) {
                case "document":
                    document = Files.readAllBytes(Path.of(words[1]));
                    System.out.println(document.length);
                    break;
                case "run":
                    run(document, words[1]);
                    break;
                default:
                    throw new IOException("no such request: " + line);
            }
        }
    }

    private void run(byte[] document, String request) throws Exception {
        String[] words = request.split(" ", 2);
        long length = Long.parseLong(words[0]);
        long start = System.nanoTime();
        long calls = 0;
        long passed;
        long selected;
        do {
            selected = selected(document, words[1]);
            calls += 1;
            passed = System.nanoTime() - start;
        } while (passed < length);
        System.out.println(selected + " " + calls + " " + passed);
    }
}
