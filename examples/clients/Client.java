import java.io.BufferedReader;
import java.io.BufferedWriter;
import java.io.EOFException;
import java.io.IOException;
import java.io.InputStreamReader;
import java.io.OutputStreamWriter;
import java.nio.charset.StandardCharsets;
import java.util.ArrayList;
import java.util.List;
import java.util.Map;
import java.util.SortedMap;
import java.util.SortedSet;
import java.util.TreeMap;
import java.util.TreeSet;

/**
 * Drives `papcalc run` from another program: `java Client.java [PROGRAM]`, from the top of the repository.
 *
 * Loads a month's pay runs from a table, corrects one of them, and prints what the correction changed. Paste the classes Refused
 * and Payroll into a program of your own: Payroll sends a line and reads its whole answer before it sends the next.
 */
public final class Client {
    /** The line was refused: it changed nothing, and the next line may be sent. */
    static final class Refused extends Exception {
        Refused(String line, String[] words) {
            super(line + " (the line was: " + String.join(" ", words) + ")");
        }
    }

    static final class Payroll implements AutoCloseable {
        /** How the last line of an answer begins. Each other line is answered by one line; an empty line or a comment by none. */
        private static final Map<String, String> LAST_WORD =
            Map.of("report", "end", "trace", "end", "owed", "end", "file", "filed", "try", "would");

        private final Process process;
        private final BufferedWriter lines;
        private final BufferedReader answers;

        Payroll(String program) throws IOException {
            process = new ProcessBuilder(program, "run").redirectError(ProcessBuilder.Redirect.INHERIT).start();
            lines = new BufferedWriter(new OutputStreamWriter(process.getOutputStream(), StandardCharsets.US_ASCII.newEncoder()));
            answers = new BufferedReader(new InputStreamReader(process.getInputStream(), StandardCharsets.US_ASCII));
        }

        @Override
        public void close() throws IOException, InterruptedException {
            lines.close();
            process.waitFor();
        }

        /** Sends a line of these words, and gives the lines of its answer. */
        List<String> ask(String... words) throws IOException, InterruptedException, Refused {
            for (String word : words) {
                if (word.isEmpty() || word.matches("(?s).*[ \\t\\r\\n].*") || words[0].startsWith("#")) {
                    throw new IllegalArgumentException("these are no words of a line: " + List.of(words));
                }
            }
            lines.write(String.join(" ", words) + "\n");
            lines.flush();
            List<String> answer = new ArrayList<>();
            while (true) {
                String line = answers.readLine();
                if (line == null) {
                    throw new EOFException("papcalc ended with status " + process.waitFor() + " at " + String.join(" ", words));
                }
                if (line.startsWith("refused ")) {
                    throw new Refused(line, words);
                }
                answer.add(line);
                String last = LAST_WORD.get(words[0]);
                if (last == null || line.split(" ")[0].equals(last)) {
                    return answer;
                }
            }
        }

        /** Each reported amount by employee, day and name; of a run without amounts its state by employee and day. */
        SortedMap<String, String> report() throws IOException, InterruptedException, Refused {
            List<String> rows = ask("report");
            SortedMap<String, String> report = new TreeMap<>();
            for (String row : rows.subList(1, rows.size() - 1)) {
                String[] field = row.split(",", -1);
                boolean isOk = field[4].equals("ok");
                report.put(field[0] + " " + field[2] + (isOk ? " " + field[5] : ""), isOk ? field[6] : (field[4] + " " + field[5]).trim());
            }
            return report;
        }
    }

    /** What one report shows and the other doesn't, in order of employee, day and name. */
    static void printChanges(SortedMap<String, String> before, SortedMap<String, String> after) {
        SortedSet<String> keys = new TreeSet<>(before.keySet());
        keys.addAll(after.keySet());
        for (String key : keys) {
            String was = before.getOrDefault(key, "nothing");
            String is = after.getOrDefault(key, "nothing");
            if (!was.equals(is)) {
                System.out.println(key + " " + was + " -> " + is);
            }
        }
    }

    public static void main(String[] words) throws Exception {
        try (Payroll payroll = new Payroll(words.length > 0 ? words[0] : "papcalc")) {
            payroll.ask("plan", "2026-01-01", "examples/payroll_tax.xml", "examples/payroll_tax.toml");
            payroll.ask("load", "examples/january.csv");
            SortedMap<String, String> before = payroll.report();
            System.out.println(before.size() + " amounts were reported");
            payroll.ask("change", "anna", "2026-01", "2026-01-30", "PERIOD=2", "PAY=465000", "TAX_CLASS=1", "CHURCH_RATE=9");
            String runs = payroll.ask("work").get(0).split(" ")[1];
            System.out.println("the correction made " + runs + " run again");
            printChanges(before, payroll.report());
            try {
                payroll.ask("withdraw", "dora", "2026-01");
            } catch (Refused refused) {
                System.out.println(refused.getMessage());
            }
        }
    }
}
