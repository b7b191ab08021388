import java.io.BufferedReader;
import java.io.BufferedWriter;
import java.io.FileReader;
import java.io.IOException;
import java.io.OutputStreamWriter;
import java.util.List;
import java.util.TreeMap;

/**
 * The report of a script's `add` lines as a plain program makes it: `java -cp build BenchBook SCRIPT > report.csv` reads the lines, runs
 * every record on the class `Plan` (from tools/java_of_plan.py), and writes the rows. It carries out `add` and `report` alone.
 * With a second word, a number of rounds, it writes no report but the milliseconds of each round of all runs, whose inputs were read before.
 */
final class BenchBook {
    private record Run(String employee, String month, String day, String[] values) {
    }

    public static void main(String[] words) throws IOException {
        TreeMap<String, Run> runs = read(words[0]);
        if (words.length > 1) {
            for (int round = 0; round < Integer.parseInt(words[1]); round++) {
                System.out.printf("%.1f%n", milliseconds(runs));
            }
            return;
        }
        try (BufferedWriter report = new BufferedWriter(new OutputStreamWriter(System.out))) {
            report.write("employee,month,day,plan,state,name,value\n");
            for (Run run : runs.values()) {
                write(run, report);
            }
        }
    }

    private static TreeMap<String, Run> read(String file) throws IOException {
        TreeMap<String, Run> runs = new TreeMap<>();
        try (BufferedReader script = new BufferedReader(new FileReader(file))) {
            for (String line = script.readLine(); line != null; line = script.readLine()) {
                String[] parts = line.split(" ");
                if (parts[0].equals("add")) {
                    String[] values = java.util.Arrays.copyOfRange(parts, 4, parts.length);
                    runs.put(parts[1] + " " + parts[3], new Run(parts[1], parts[2], parts[3], values));
                }
            }
        }
        return runs;
    }

    /** The time of all runs, without the reading of their inputs. */
    private static double milliseconds(TreeMap<String, Run> runs) {
        List<Plan> plans = runs.values().stream().map(BenchBook::prepared).toList();
        long began = System.nanoTime();
        for (Plan plan : plans) {
            plan.run();
        }
        return (System.nanoTime() - began) / 1e6;
    }

    /** A plan with the inputs of a run. */
    private static Plan prepared(Run run) {
        Plan plan = new Plan();
        for (String value : run.values()) {
            int equals = value.indexOf('=');
            plan.set(value.substring(0, equals), value.substring(equals + 1));
        }
        return plan;
    }

    private static void write(Run run, BufferedWriter report) throws IOException {
        Plan plan = prepared(run);
        plan.run();
        String[] outputs = plan.outputs();
        String front = run.employee() + "," + run.month() + "," + run.day() + ",2026-01-01,ok,";
        for (int at = 0; at < outputs.length; at++) {
            report.write(front + Plan.OUTPUTS[at] + "," + outputs[at] + "\n");
        }
    }
}
