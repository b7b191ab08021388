"""Worked calls of the library, put to the built program.

call_rows.py PROGRAM FILE: the file is a JSON list of calls with their answers. A call that has a form on the program, as an
operation that `once` carries out on literals or one on ranges that `check` shows, is put to it; the others are counted.
"""
import json
import os
import subprocess
import sys
import tempfile

PROGRAM, ROWS = os.path.abspath(sys.argv[1]), sys.argv[2]


def decimal(numerator, scale):
    """The plain text of a decimal."""
    digits = str(abs(numerator)).rjust(scale + 1, "0")
    point = len(digits) - scale
    return ("-" if numerator < 0 else "") + digits[:point] + ("." + digits[point:] if scale else "")


def literal(number):
    return 'new BigDecimal(&quot;%s&quot;)' % decimal(*number)


def plan(body, output, inputs=(), constants=""):
    """The text of a plan with one output, whose inputs are names with types."""
    declared = "".join('<INPUT name="%s" type="%s"/>' % one for one in inputs)
    declared = "<INPUTS>%s</INPUTS>" % declared if declared else ""
    constants = "<CONSTANTS>%s</CONSTANTS>" % constants if constants else ""
    return ('<PAP><VARIABLES>%s<OUTPUTS><OUTPUT name="Q" type="%s"/></OUTPUTS></VARIABLES>%s'
            "<METHODS><MAIN>%s</MAIN></METHODS></PAP>" % (declared, output, constants, body))


def limit(name, low, high, places):
    return '[input.%s]\nlow = "%s"\nhigh = "%s"\nplaces = %d\n' % (name, low, high, places)


def of_range(name, ends):
    low, high, _, places = ends
    return limit(name, decimal(low, places), decimal(high, places), places)


def set_to(value):
    return '<EVAL exec="Q= %s"/>' % value


def once(value, wanted):
    """What `once` gives for a value of literals."""
    return ["once"], plan(set_to(value), "BigDecimal"), "", "Q %s\n" % decimal(*wanted)


def check(text, limits, wanted):
    """What `check` gives: the range of the output, or the cause of the refusal."""
    if isinstance(wanted, str):
        return ["check"], text, limits, "refused plan %s MAIN:" % wanted
    low, high, least, places = wanted
    ends = decimal(low, places), decimal(high, places)
    return ["check"], text, limits, "\nQ %s %s %d %d\n" % (*ends, least, places)


def read_form(text, wanted):
    """A word with a value. A number is the output or, where it is too great for one, above 0."""
    read = plan(set_to("X"), "BigDecimal", [("X", "BigDecimal")])
    if len(wanted) == 1 or wanted[0] == "Shape":
        return ["once", "X=" + text], read, limit("X", 0, 1, 2), None
    if wanted[0] > 10 ** 20:
        read = plan(set_to("X.compareTo(BigDecimal.ZERO)"), "int", [("X", "BigDecimal")])
        return ["once", "X=" + text], read, limit("X", 0, decimal(*wanted), wanted[1]), "Q 1\n"
    return ["once", "X=" + text], read, limit("X", 0, decimal(*wanted), wanted[1]), "Q %s\n" % decimal(*wanted)


def refine_form(value, other, signs, whole, wanted):
    """A test that isn't equal, before the value; where it lets nothing through, a division by 0 stands there."""
    if signs != [-1, 1] or other != [0, 0, 0, 0]:
        return None
    kind, test = ("int", "V != 0") if whole else ("BigDecimal", "V.compareTo(BigDecimal.ZERO) != 0")
    yes, no = ("V", wanted[0]) if wanted else ("1 / 0", 3)
    no = str(no) if whole else "BigDecimal.valueOf(%d)" % no
    body = '<IF expr="%s"><THEN>%s</THEN><ELSE>%s</ELSE></IF>' % (test, set_to(yes), set_to(no))
    return check(plan(body, kind, [("V", kind)]), of_range("V", value), wanted or [3, 3, 0, 0])


def form(call, args, wanted):
    """The words, the two texts, and what the answer contains (none: a refused word); or none where there is no form."""
    if call == "round_div":
        value = "%s.divide(%s, 0, BigDecimal.ROUND_%s)" % (literal((args[0], 0)), literal((args[1], 0)), args[2])
        return once(value, (wanted, 0))
    if call == "set_scale":
        return once("%s.setScale(%d, BigDecimal.ROUND_%s)" % (literal(args[0]), args[1], args[2]), wanted)
    if call == "read_dec":
        return read_form(args[0], wanted)
    if call == "write_dec":
        return once(literal(args[0]), args[0])
    if call == "div_exact":
        return once("%s.divide(BigDecimal.valueOf(%d))" % (literal(args[0]), args[1]), wanted)
    if call == "value_of_point":
        return once("BigDecimal.valueOf(%s)" % decimal(*args[0]), wanted)
    if call == "abs_div":
        text = plan(set_to("A.divide(B, %d, BigDecimal.ROUND_%s)" % (args[2], args[3])), "BigDecimal",
                    [("A", "BigDecimal"), ("B", "BigDecimal")])
        return check(text, of_range("A", args[0]) + of_range("B", args[1]), wanted)
    if call == "abs_div_exact":
        text = plan(set_to("A.divide(BigDecimal.valueOf(%d))" % args[1]), "BigDecimal", [("A", "BigDecimal")])
        return check(text, of_range("A", args[0]), wanted)
    if call == "abs_item":
        items = ", ".join(literal(item) for item in args[0])
        table = '<CONSTANT name="T" type="BigDecimal[]" value="{%s}"/>' % items
        return check(plan(set_to("T[I]"), "BigDecimal", [("I", "int")], table), of_range("I", args[1]), wanted)
    if call == "refine":
        return refine_form(*args, wanted)
    if call == "int_rem":
        text = plan(set_to("A % B"), "int", [("A", "int"), ("B", "int")])
        return check(text, of_range("A", args[0]) + of_range("B", args[1]), wanted)
    if call == "fits":
        (low, high, places), value = args
        limits = limit("X", decimal(*low), decimal(*high), places)
        text = plan(set_to("X"), "BigDecimal", [("X", "BigDecimal")])
        shown = decimal(*value)
        return ["once", "X=" + shown], text, limits, "Q %s\n" % shown if wanted else "refused state range X\n"
    if call == "fill" and not args[2]:
        (slot,) = args[0]
        low, high, places = slot["limit"]
        limits = limit("N", decimal(*low), decimal(*high), places) + '[bind.N]\nkind = "%s"\n' % slot["carry"][0]
        return ["once"], plan(set_to("N"), "int", [("N", "int")]), limits, "Q %s\n" % decimal(*wanted[1][0])
    return None


def failure(words, text, limits, wanted):
    """What is wrong with the answer, or none."""
    with tempfile.TemporaryDirectory() as folder:
        for name, content in (("p.xml", text), ("l.toml", limits)):
            with open(os.path.join(folder, name), "w", encoding="ascii") as file:
                file.write(content)
        ran = subprocess.run([PROGRAM, words[0], "p.xml", "l.toml", *words[1:]], cwd=folder, capture_output=True, text=True)
    if wanted is None:
        return None if ran.returncode == 2 and not ran.stdout else "status %d" % ran.returncode
    return None if wanted in "\n" + ran.stdout else "%r in place of %r" % (ran.stdout, wanted)


def main():
    with open(ROWS, encoding="utf-8") as file:
        calls = json.load(file)
    passed = failed = 0
    for one in calls:
        asked = form(one["call"], one["args"], one["expected"])
        if asked is None:
            continue
        wrong = failure(*asked)
        passed, failed = passed + (wrong is None), failed + (wrong is not None)
        if wrong:
            print("%s %s: %s" % (one["call"], one["args"], wrong))
    print("%d calls passed, %d failed, %d have no form on the program" % (passed, failed, len(calls) - passed - failed))
    return 1 if failed else 0


sys.exit(main())
