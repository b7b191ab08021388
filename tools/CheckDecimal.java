import java.io.BufferedReader;
import java.io.IOException;
import java.io.PrintStream;
import java.math.BigDecimal;
import java.math.BigInteger;
import java.math.RoundingMode;
import java.nio.charset.StandardCharsets;
import java.nio.file.Files;
import java.nio.file.Path;
import java.util.Random;

/**
 * Compares the answers of decimal_tool with java.math.BigDecimal, over the full range: numerators up to 10^37, scales up
 * to 30. Where a number that the operation works with leaves these limits, the answer is "none".
 *
 * "generate SEED COUNT" writes lines of operations, "answers LINES" works them out, and "compare LINES ANSWERS" compares.
 */
final class CheckDecimal {
    private static final RoundingMode[] MODES = {
        RoundingMode.DOWN, RoundingMode.UP, RoundingMode.FLOOR, RoundingMode.CEILING,
        RoundingMode.HALF_UP, RoundingMode.HALF_DOWN, RoundingMode.HALF_EVEN,
    };
    private static final String[] OPERATIONS = {
        "add", "sub", "mul", "min", "max", "cmp", "compare", "div", "scale", "shorten", "exact", "neg", "abs", "round", "read",
    };
    private static final int DIGITS = 37;
    private static final int PLACES = 30;
    private static final BigInteger LIMIT = ten(DIGITS);
    private static final String NONE = "none";

    private final Random random;

    private CheckDecimal(long seed) {
        random = new Random(seed);
    }

    public static void main(String[] words) throws IOException {
        if (words[0].equals("generate")) {
            new CheckDecimal(Long.parseLong(words[1])).generate(Integer.parseInt(words[2]));
        } else if (words[0].equals("answers")) {
            for (String line : Files.readAllLines(Path.of(words[1]))) {
                System.out.println(workedOut(line.split(" ")));
            }
        } else {
            compare(Path.of(words[1]), Path.of(words[2]));
        }
    }

    private void generate(int count) {
        PrintStream out = new PrintStream(System.out, false, StandardCharsets.UTF_8);
        for (int i = 0; i < count; i++) {
            String operation = OPERATIONS[i % OPERATIONS.length];
            out.println(line(operation, MODES[(i / OPERATIONS.length) % MODES.length]));
        }
        out.flush();
    }

    private String line(String operation, RoundingMode mode) {
        boolean any = random.nextInt(8) == 0;
        return switch (operation) {
            case "add", "sub", "min", "max", "cmp" -> operation + (any ? anyTwo() : alignedTwo());
            case "compare" -> operation + (random.nextBoolean() ? anyTwo() : alignedTwo());
            case "mul" -> operation + (any ? anyTwo() : factors());
            case "div" -> operation + " " + mode + quotient(any);
            case "scale" -> operation + " " + mode + longer(any);
            case "shorten" -> "scale " + mode + shorter();
            case "exact" -> operation + plainQuotient(any);
            case "round" -> operation + " " + mode + wholes();
            default -> operation + " " + text(kept());
        };
    }

    /** Two decimals that mostly fit at the greater scale. */
    private String alignedTwo() {
        int first = random.nextInt(PLACES + 1);
        int second = random.nextInt(PLACES + 1);
        int greater = Math.max(first, second);
        return " " + text(number(DIGITS - (greater - first), first)) + " " + text(number(DIGITS - (greater - second), second));
    }

    private String anyTwo() {
        return " " + text(kept()) + " " + text(kept());
    }

    private String factors() {
        int digits = 1 + random.nextInt(DIGITS - 1);
        int places = random.nextInt(PLACES + 1);
        return " " + text(number(digits, places)) + " " + text(number(DIGITS - digits, random.nextInt(PLACES - places + 1)));
    }

    /** A scale, a dividend and a divisor. */
    private String quotient(boolean any) {
        if (random.nextInt(3) == 0) return tie();
        int scale = random.nextInt(PLACES + 1);
        int first = random.nextInt(PLACES + 1);
        int second = random.nextInt(PLACES + 1);
        int zeros = scale + second - first;
        BigDecimal divisor = some(number(any || zeros >= 0 ? DIGITS : DIGITS + zeros, second));
        return " " + scale + " " + text(number(any || zeros <= 0 ? DIGITS : Math.max(1, DIGITS - zeros), first)) + " " + text(divisor);
    }

    /** The same, where the quotient lies half way between two neighbours. */
    private String tie() {
        int scale = random.nextInt(15);
        BigDecimal divisor = some(number(12, random.nextInt(15)));
        BigInteger odd = whole(9).shiftLeft(1).add(BigInteger.ONE);
        BigDecimal dividend = divisor.multiply(new BigDecimal(odd.multiply(BigInteger.valueOf(5)), scale + 1));
        return " " + scale + " " + text(dividend) + " " + text(divisor);
    }

    private String longer(boolean any) {
        int scale = random.nextInt(PLACES + 1);
        int own = random.nextInt(scale + 1);
        return " " + scale + " " + text(number(any ? DIGITS : DIGITS - (scale - own), own));
    }

    private String shorter() {
        BigDecimal value = kept();
        int scale = random.nextInt(value.scale() + 1);
        int lost = value.scale() - scale;
        if (lost > 0 && random.nextInt(3) == 0) {
            BigInteger odd = whole(DIGITS - lost).shiftRight(1).shiftLeft(1).add(BigInteger.ONE);
            value = new BigDecimal(odd.multiply(BigInteger.valueOf(5)).multiply(ten(lost - 1)), value.scale());
            if (!fits(value.unscaledValue())) value = BigDecimal.valueOf(25, 2);
        }
        return " " + Math.min(scale, value.scale()) + " " + text(value);
    }

    /** A divisor of 10^30, or now and then another number, and a dividend. */
    private String plainQuotient(boolean any) {
        int twos = random.nextInt(PLACES + 1);
        int fives = random.nextInt(4) == 0 ? random.nextInt(PLACES + 1) : twos;
        BigInteger divisor = BigInteger.TWO.pow(twos).multiply(BigInteger.valueOf(5).pow(fives));
        int places = Math.max(twos, fives);
        int lost = ten(places).divide(divisor).toString().length();
        BigDecimal dividend = any ? kept() : number(Math.max(1, DIGITS + 1 - lost), random.nextInt(PLACES - places + 1));
        return " " + (random.nextInt(20) == 0 ? divisor.add(BigInteger.ONE) : divisor) + " " + text(dividend);
    }

    /** Two whole numbers, of which the second isn't 0. */
    private String wholes() {
        BigInteger divisor = some(new BigDecimal(whole(1 + random.nextInt(DIGITS)))).unscaledValue();
        BigInteger dividend = whole(1 + random.nextInt(DIGITS));
        if (random.nextInt(3) == 0) {
            BigInteger half = divisor.multiply(whole(1 + random.nextInt(9)).shiftLeft(1).add(BigInteger.ONE));
            if (!half.testBit(0) && fits(half.shiftRight(1))) dividend = half.shiftRight(1);
        }
        return " " + dividend + " " + divisor;
    }

    private static void compare(Path linesFile, Path answersFile) throws IOException {
        int compared = 0;
        int beyond = 0;
        int different = 0;
        try (BufferedReader lines = Files.newBufferedReader(linesFile);
             BufferedReader answers = Files.newBufferedReader(answersFile)) {
            for (String line = lines.readLine(); line != null; line = lines.readLine()) {
                String answer = answers.readLine();
                String wanted = workedOut(line.split(" "));
                if (!wanted.equals(answer)) {
                    different++;
                    System.out.println("different: " + line + ": " + answer + ", and BigDecimal says " + wanted);
                }
                if (wanted.equals(NONE)) beyond++;
                compared++;
            }
        }
        System.out.println(compared + " operations compared, " + beyond + " of them beyond the limits, " + different + " different");
        if (different > 0) System.exit(1);
    }

    private static String workedOut(String[] words) {
        BigDecimal a = new BigDecimal(words[words.length - 1]);
        BigDecimal first = words.length > 2 && !words[0].equals("scale") ? new BigDecimal(words[words.length - 2]) : null;
        return switch (words[0]) {
            case "add" -> areAligned(first, a) ? kept(first.add(a)) : NONE;
            case "sub" -> areAligned(first, a) ? kept(first.subtract(a)) : NONE;
            case "mul" -> kept(first.multiply(a));
            case "min" -> areAligned(first, a) ? text(first.min(a)) : NONE;
            case "max" -> areAligned(first, a) ? text(first.max(a)) : NONE;
            case "cmp" -> areAligned(first, a) ? Integer.toString(first.compareTo(a)) : NONE;
            case "compare" -> Integer.toString(first.compareTo(a));
            case "div" -> divided(first, a, Integer.parseInt(words[2]), RoundingMode.valueOf(words[1]));
            case "scale" -> rescaled(a, Integer.parseInt(words[2]), RoundingMode.valueOf(words[1]));
            case "exact" -> exact(a, first.toBigIntegerExact());
            case "neg" -> text(a.negate());
            case "abs" -> text(a.abs());
            case "round" -> text(first.divide(a, 0, RoundingMode.valueOf(words[1])));
            default -> text(a);
        };
    }

    /** Whether both numerators are within the limit at the greater scale. */
    private static boolean areAligned(BigDecimal a, BigDecimal b) {
        int scale = Math.max(a.scale(), b.scale());
        return fits(a.setScale(scale).unscaledValue()) && fits(b.setScale(scale).unscaledValue());
    }

    private static String divided(BigDecimal a, BigDecimal b, int scale, RoundingMode mode) {
        int zeros = scale + b.scale() - a.scale();
        BigInteger lengthened = (zeros < 0 ? b : a).unscaledValue().multiply(ten(Math.abs(zeros)));
        return Math.abs(zeros) <= DIGITS && fits(lengthened) ? kept(a.divide(b, scale, mode)) : NONE;
    }

    private static String rescaled(BigDecimal a, int scale, RoundingMode mode) {
        return kept(a.setScale(scale, mode));
    }

    /** The exact quotient at the least scale that is at least the receiver's. */
    private static String exact(BigDecimal a, BigInteger divisor) {
        if (ten(PLACES).mod(divisor).signum() != 0) return NONE;
        int places = 0;
        while (ten(places).mod(divisor).signum() != 0) places++;
        BigInteger longest = a.unscaledValue().multiply(ten(places).divide(divisor));
        if (!fits(longest) || a.scale() + places > PLACES) return NONE;
        BigDecimal quotient = a.divide(new BigDecimal(divisor));
        return text(quotient.scale() < a.scale() ? quotient.setScale(a.scale()) : quotient);
    }

    private static String kept(BigDecimal value) {
        return fits(value.unscaledValue()) && value.scale() <= PLACES ? text(value) : NONE;
    }

    private static boolean fits(BigInteger number) {
        return number.abs().compareTo(LIMIT) <= 0;
    }

    private static String text(BigDecimal value) {
        return value.toPlainString();
    }

    private static BigInteger ten(int exponent) {
        return BigInteger.TEN.pow(exponent);
    }

    private static BigDecimal some(BigDecimal value) {
        return value.signum() == 0 ? new BigDecimal(BigInteger.ONE, value.scale()) : value;
    }

    private BigDecimal kept() {
        return number(DIGITS, random.nextInt(PLACES + 1));
    }

    /** A numerator of up to so many digits, now and then the power of ten just beyond them. */
    private BigDecimal number(int digits, int scale) {
        int used = 1 + random.nextInt(Math.min(digits, DIGITS));
        BigInteger numerator = random.nextInt(30) == 0 ? ten(used) : whole(used);
        return new BigDecimal(random.nextBoolean() ? numerator.negate() : numerator, scale);
    }

    private BigInteger whole(int digits) {
        BigInteger number = new BigInteger(digits * 4, random).mod(ten(digits));
        return random.nextBoolean() ? number.negate() : number;
    }
}
