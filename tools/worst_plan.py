#!/usr/bin/env python3
"""The flowcharts that take `check` longest, of those we know: worst_plan.py FOLDER [CALLS] writes worst.xml, table.xml, tests.xml, nested.xml
and branching.xml with their range files into FOLDER; CALLS has MAIN execute its method fewer times than it could.

worst.xml is at both limits that bound the walk, 200,000 statements with those of executed methods and 1,000 tokens an expression: MAIN
executes a method of 100 assignments 1,970 times, each of which joins 245 comparisons of two internals by `&&`. Each comparison looks up two
names and narrows two ranges.

table.xml is the same with 110 items of a table of 500 in each assignment, whose index may be any: each takes time with all 500.

tests.xml has 1,024 internals and, in a method that MAIN executes 128 times, as many tests as a file may have bytes for: each joins 241
comparisons by `&&`, each of which narrows the range of another internal.

nested.xml is as deep as a flowchart may be: 63 methods, each of which executes the next within 32 IFs, and the last of which changes 1,023
internals. Both branches of each IF can be reached, so behind each what is inside is joined with what was before.

branching.xml is nested.xml with a short ELSE in each IF."""
import sys

INTERNALS, COMPARISONS = 1_024, 241
WORST_CALLS, TEST_CALLS, NESTED_CALLS, BRANCHING_CALLS = 1_970, 128, 64, 38
ASSIGNMENTS, JOINED, TABLE, ITEMS = 100, 245, 500, 110
METHODS, DEPTH = 63, 32
MOST_BYTES = 1_048_576
RANGES = "[input.X]\nlow = 0\nhigh = 100_000\nplaces = 0\n"
INDICES = f"[input.X]\nlow = 0\nhigh = {TABLE - 1}\nplaces = 0\n"


def front(calls):
    internals = "".join(f'<INTERNAL name="A{number}" type="int"/>' for number in range(INTERNALS))
    sets = "".join(f'<EVAL exec="A{number} = X"/>' for number in range(INTERNALS))
    executes = '<EXECUTE method="M0"/>' * calls
    return (f'<PAP><VARIABLES><INPUTS><INPUT name="X" type="int"/></INPUTS><OUTPUTS><OUTPUT name="Y" type="int"/></OUTPUTS>'
            f'<INTERNALS>{internals}</INTERNALS></VARIABLES>\n<METHODS><MAIN>{sets}{executes}</MAIN>\n')


BACK = "</METHODS></PAP>\n"


def method(number, body):
    return f'<METHOD name="M{number}">\n{body}</METHOD>\n'


def test(number):
    compared = (f"A{(37 * number + 4 * at) % INTERNALS}&gt;0" for at in range(COMPARISONS))
    return f'<IF expr="{"&amp;&amp;".join(compared)}"><THEN><EVAL exec="Y=1"/></THEN></IF>\n'


def worst(calls):
    def assignment(number):
        names = (f"A{(37 * number + 4 * at) % INTERNALS}&gt;A{(37 * number + 4 * at + 1) % INTERNALS}" for at in range(JOINED))
        return f'<EVAL exec="Y={"&amp;&amp;".join(names)}?1:0"/>\n'

    return front(calls) + method(0, "".join(map(assignment, range(ASSIGNMENTS)))) + BACK


def table(calls):
    items = ", ".join(["BigDecimal.ONE"] * TABLE)
    constant = f'<CONSTANTS><CONSTANT name="T" type="BigDecimal[]" value="{{{items}}}"/></CONSTANTS>'
    declared = ('<INPUTS><INPUT name="X" type="int"/></INPUTS><OUTPUTS><OUTPUT name="Y" type="BigDecimal"/></OUTPUTS>'
                '<INTERNALS><INTERNAL name="J" type="int"/></INTERNALS>')
    assignment = f'<EVAL exec="Y=T[J]{".max(T[J])" * ITEMS}"/>\n'
    executes = '<EXECUTE method="M0"/>' * calls
    return (f'<PAP><VARIABLES>{declared}</VARIABLES>\n{constant}\n<METHODS><MAIN><EVAL exec="J = X"/>{executes}</MAIN>\n'
            f'{method(0, assignment * ASSIGNMENTS)}{BACK}')


def tests(calls):
    begin = front(calls)
    left = MOST_BYTES - len(begin + method(0, "") + BACK)
    found = []
    while len(following := test(len(found))) <= left:
        found.append(following)
        left -= len(following)
    return begin + method(0, "".join(found)) + BACK


def inside(number, body, otherwise):
    """A list of statements within the IFs of a method, each of which tests another bound than the IFs around it and has this ELSE."""
    levels = range(number * DEPTH, (number + 1) * DEPTH)
    tests = "".join(f'<IF expr="A0&gt;{level}"><THEN>' for level in levels)
    return tests + body + f"</THEN>{otherwise}</IF>" * DEPTH + "\n"


def nested(calls, otherwise=""):
    executes = [f'<EXECUTE method="M{number + 1}"/>' for number in range(METHODS - 1)]
    changes = "".join(f'<EVAL exec="A{number} = A{number} + 1"/>' for number in range(1, INTERNALS))
    methods = [method(number, inside(number, body, otherwise)) for number, body in enumerate([*executes, changes])]
    return front(calls) + "".join(methods) + BACK


def write(folder, name, plan, ranges=RANGES):
    with open(f"{folder}/{name}.xml", "w") as file:
        file.write(plan)
    with open(f"{folder}/{name}.toml", "w") as file:
        file.write(ranges)


def main(folder, calls=None):
    write(folder, "worst", worst(int(calls or WORST_CALLS)))
    write(folder, "table", table(int(calls or WORST_CALLS)), INDICES)
    write(folder, "tests", tests(int(calls or TEST_CALLS)))
    write(folder, "nested", nested(int(calls or NESTED_CALLS)))
    write(folder, "branching", nested(int(calls or BRANCHING_CALLS), '<ELSE><EVAL exec="Y=1"/></ELSE>'))


if __name__ == "__main__":
    main(*sys.argv[1:])
