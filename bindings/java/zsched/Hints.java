package zsched;

import java.nio.charset.StandardCharsets;
import java.util.Comparator;
import java.util.List;

/** What the message of a wrong text has beside the library's words: the text, a mark below its fault, and a hint. */
final class Hints {
    /** The words of the grammar, in its order. */
    private static final List<String> WORDS = List.of("forever", "recurs", "spaced", "fixed", "exponential", "fibonacci",
        "identity", "elapsed", "linear", "windowed", "andThenEither", "whileInput", "whileOutput", "collectAll", "map",
        "resetWhen", "size", "merge", "as");
    private static final List<String> OPERATORS = List.of("&&", "||", "andThenEither");
    private static final int NOT_UTF8 = 4;
    private static final int NO_TERM = 11;
    private static final int BAD_NUMBER = 13;
    /** How many bytes of a text are shown at most, and how many of them before the fault. */
    private static final int SHOWN = 80;
    private static final int BEFORE = 40;

    private Hints() { }

    /** Returns the message of a fault with these words, by its number and its place in a text. */
    static String message(String words, int number, int at, String text) {
        // A letter for each byte, so that a place is that of a letter.
        String bytes = new String(text.getBytes(StandardCharsets.UTF_8), StandardCharsets.ISO_8859_1);
        int from = Math.max(0, Math.min(at - BEFORE, bytes.length() - SHOWN));
        String shown = bytes.substring(from, Math.min(bytes.length(), from + SHOWN)).replaceAll("[^ -~]", "?");
        boolean hasPlace = number == NOT_UTF8 || number == NO_TERM || number == BAD_NUMBER;
        String hint = number == NO_TERM ? hint(bytes.substring(0, at), bytes.substring(at)) : "";
        return words + hint + "\n" + shown + (hasPlace ? "\n" + " ".repeat(at - from) + "^" : "");
    }

    private static String hint(String before, String rest) {
        boolean isOutside = count(before, '(') == count(before, ')');
        for (String it : OPERATORS) {
            if (isOutside && rest.startsWith(it)) {
                return ": \"" + it + "\" stands in parentheses: (A " + it + " B)";
            }
        }
        if (before.matches("(?s).*[0-9]") && rest.matches("(?s)\\.[0-9].*")) {
            return ": whole milliseconds, without a point";
        }
        if (rest.isEmpty()) {
            return ": the text ends too early";
        }
        String word = rest.replaceFirst("(?s)[^A-Za-z].*", "");
        String nearest = WORDS.stream().min(Comparator.comparingInt(it -> edits(word, it))).orElseThrow();
        int edits = edits(word, nearest);
        return word.isEmpty() || edits == 0 || edits > 2 ? "" : ": did you mean \"" + nearest + "\"?";
    }

    private static long count(String text, char wanted) {
        return text.chars().filter(it -> it == wanted).count();
    }

    /** Returns how many letters have to be inserted, removed or replaced to make one word of another. */
    private static int edits(String one, String other) {
        int[] row = new int[other.length() + 1];
        for (int j = 0; j <= other.length(); j++) {
            row[j] = j;
        }
        for (int i = 0; i < one.length(); i++) {
            int corner = i;
            row[0] = i + 1;
            for (int j = 0; j < other.length(); j++) {
                int replaced = corner + (one.charAt(i) == other.charAt(j) ? 0 : 1);
                corner = row[j + 1];
                row[j + 1] = Math.min(replaced, Math.min(row[j], corner) + 1);
            }
        }
        return row[other.length()];
    }
}
