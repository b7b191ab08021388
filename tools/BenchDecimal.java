import java.math.BigDecimal;
import java.math.BigInteger;
import java.math.RoundingMode;
import java.nio.charset.StandardCharsets;

/** Times operations of java.math.BigDecimal on the amounts that decimal_tool times its own on, and sums their results. */
final class BenchDecimal {
    private static final int AMOUNTS = 1024;
    private static final RoundingMode[] MODES = {
        RoundingMode.DOWN, RoundingMode.UP, RoundingMode.FLOOR, RoundingMode.CEILING,
        RoundingMode.HALF_UP, RoundingMode.HALF_DOWN, RoundingMode.HALF_EVEN,
    };

    private interface Operation {
        long run(int i, int j);
    }

    public static void main(String[] words) {
        int rounds = Integer.parseInt(words[0]);
        BigDecimal[] amounts = new BigDecimal[AMOUNTS];
        byte[][] texts = new byte[AMOUNTS][];
        long state = 1;
        for (int i = 0; i < AMOUNTS; i++) {
            state = state * 48271 % 2147483647L;
            long numerator = state % 1000000000L - 500000000L;
            state = state * 48271 % 2147483647L;
            amounts[i] = new BigDecimal(BigInteger.valueOf(numerator), (int) (state % 5));
            texts[i] = amounts[i].toPlainString().getBytes(StandardCharsets.US_ASCII);
        }
        System.out.println("java.math.BigDecimal: nanoseconds for one operation, and the sum of all results");
        for (int warm = 0; warm < 2; warm++) {
            boolean last = warm == 1;
            time("add", rounds, 1, last, (i, j) -> amounts[i].add(amounts[j]).unscaledValue().longValue());
            time("subtract", rounds, 1, last, (i, j) -> amounts[i].subtract(amounts[j]).unscaledValue().longValue());
            time("multiply", rounds, 1, last, (i, j) -> amounts[i].multiply(amounts[j]).unscaledValue().longValue());
            time("divide", rounds, 1, last, (i, j) -> amounts[j].signum() == 0 ? 0
                : amounts[i].divide(amounts[j], amounts[i].scale(), MODES[j % 7]).unscaledValue().longValue());
            time("setScale", rounds, 1, last,
                (i, j) -> amounts[i].setScale(amounts[j].scale(), MODES[j % 7]).unscaledValue().longValue());
            time("compareTo", rounds, 1, last, (i, j) -> amounts[i].compareTo(amounts[j]));
            time("read", rounds, 0, last,
                (i, j) -> new BigDecimal(new String(texts[j], StandardCharsets.US_ASCII)).unscaledValue().longValue());
            time("write", rounds, 0, last,
                (i, j) -> amounts[j].toPlainString().getBytes(StandardCharsets.US_ASCII).length);
        }
    }

    /** Runs the operation on each amount from the first on, with the one before it, and sums the results in 128 bits. */
    private static void time(String name, int rounds, int first, boolean print, Operation operation) {
        long start = System.nanoTime();
        long low = 0;
        long high = 0;
        for (int round = 0; round < rounds; round++) {
            for (int j = first; j < AMOUNTS; j++) {
                long result = operation.run(j - 1, j);
                low += result;
                high += (result >> 63) + (Long.compareUnsigned(low, result) < 0 ? 1 : 0);
            }
        }
        long nanos = System.nanoTime() - start;
        BigInteger sum = BigInteger.valueOf(high).shiftLeft(64).add(new BigInteger(Long.toUnsignedString(low)));
        if (print) {
            System.out.printf("%s: %.1f ns, %s%n", name, (double) nanos / ((double) rounds * (AMOUNTS - first)), sum);
        }
    }
}
