/**
 * Times a flowchart on java.math.BigDecimal, as the class `Plan` (from tools/java_of_plan.py) has it: `java -cp FOLDER BenchPlan STEPS
 * NAME=VALUE ..`, where a run takes STEPS steps.
 */
final class BenchPlan {
    private static final int ROUNDS = 8;
    private static final int RUNS = 100_000;

    public static void main(String[] words) {
        long steps = Long.parseLong(words[0]);
        Plan plan = new Plan();
        for (int at = 1; at < words.length; at++) {
            String[] value = words[at].split("=");
            plan.set(value[0], value[1]);
        }
        for (int round = 0; round < ROUNDS; round++) {
            long began = System.nanoTime();
            for (int run = 0; run < RUNS; run++) {
                plan.run();
            }
            long spent = System.nanoTime() - began;
            System.out.printf("Java: %d ps a step of %d (%s %s)%n", spent * 1000 / RUNS / steps, steps, Plan.OUTPUTS[0], plan.outputs()[0]);
        }
    }
}
