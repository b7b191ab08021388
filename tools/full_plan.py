#!/usr/bin/env python3
"""A flowchart as large as the published ones: full_plan.py FOLDER writes FOLDER/full.xml and FOLDER/full.toml.

It has 36 inputs, 16 outputs and some 400 statements: fifteen kinds of pay, each of which is brought to a year, freed of an allowance,
taxed by a tariff of four zones and brought back to its period. Every amount and rate is made up."""
import sys

KINDS = 15
AMOUNTS = 30
HEAD = """<?xml version="1.0" encoding="UTF-8"?>
<!-- A flowchart as large as the published ones. Every amount, rate and limit is made up. -->
<PAP name="FullSize" version="1.0">
 <VARIABLES>
"""
CONSTANTS = """ <CONSTANTS>
  <CONSTANT name="NOTHING" type="BigDecimal" value="BigDecimal.valueOf(0, 2)"/>
  <CONSTANT name="HUNDRED" type="BigDecimal" value="new BigDecimal(100)"/>
  <CONSTANT name="TWELVE" type="BigDecimal" value="new BigDecimal(12)"/>
  <CONSTANT name="DAYS" type="BigDecimal" value="new BigDecimal(360)"/>
  <CONSTANT name="SEVEN" type="BigDecimal" value="new BigDecimal(7)"/>
  <CONSTANT name="TEN_THOUSAND" type="BigDecimal" value="new BigDecimal(10000)"/>
  <CONSTANT name="BASIC" type="BigDecimal" value="new BigDecimal(11000)"/>
  <CONSTANT name="MIDDLE" type="BigDecimal" value="new BigDecimal(17000)"/>
  <CONSTANT name="UPPER" type="BigDecimal" value="new BigDecimal(66000)"/>
  <CONSTANT name="MOST_FREE" type="BigDecimal[]" value="{BigDecimal.valueOf(0), BigDecimal.valueOf(1236), BigDecimal.valueOf(5496), BigDecimal.valueOf(1236), BigDecimal.valueOf(1236), BigDecimal.valueOf(1236), BigDecimal.valueOf(0)}"/>
 </CONSTANTS>
"""


def evaluated(text):
    return f'<EVAL exec="{text}"/>'


def branch(test, holds, fails=""):
    escaped = test.replace("&", "&amp;").replace("<", "&lt;")
    other = f"<ELSE>{fails}</ELSE>" if fails else ""
    return f'<IF expr="{escaped}"><THEN>{holds}</THEN>{other}</IF>'


def brought_to_year(name):
    def by_days(part):
        return evaluated(f"{name} = {name}.multiply(DAYS).divide({part}, 2, BigDecimal.ROUND_DOWN)")
    year = evaluated(f"{name} = {name}.divide(HUNDRED, 2, BigDecimal.ROUND_DOWN)")
    month = evaluated(f"{name} = {name}.multiply(TWELVE).divide(HUNDRED, 2, BigDecimal.ROUND_DOWN)")
    shorter = branch("PERIOD == 3", by_days("SEVEN.multiply(HUNDRED)"), by_days("HUNDRED"))
    return branch("PERIOD == 1", year, branch("PERIOD == 2", month, shorter))


def tariff():
    def zone(limit, slope, first, constant):
        return (evaluated(f"Y = X.subtract({limit}).divide(TEN_THOUSAND, 6, BigDecimal.ROUND_DOWN)")
                + evaluated(f"T = Y.multiply(BigDecimal.valueOf({slope})).add(BigDecimal.valueOf({first})).multiply(Y)"
                            f".add(BigDecimal.valueOf({constant})).setScale(0, BigDecimal.ROUND_DOWN)"))
    top = evaluated("T = X.multiply(BigDecimal.valueOf(0.42)).subtract(BigDecimal.valueOf(10450)).setScale(0, BigDecimal.ROUND_DOWN)")
    third = branch("X.compareTo(UPPER) < 1", zone("MIDDLE", 180.5, 2400, 1175), top)
    second = branch("X.compareTo(MIDDLE) < 1", zone("BASIC", 930.5, 1400, 0), third)
    return branch("X.compareTo(BASIC) < 1", evaluated("T = BigDecimal.ZERO"), second)


def method(kind):
    first, second, rate = f"AMOUNT_{2 * kind - 1}", f"AMOUNT_{2 * kind}", f"RATE_{kind % 4 + 1}"
    return "".join([
        evaluated(f"BASE = {first}.add({second})"),
        brought_to_year("BASE"),
        evaluated(f"FREE = BASE.multiply({rate}).setScale(2, BigDecimal.ROUND_UP)"),
        branch("FREE.compareTo(MOST_FREE[TAX_CLASS]) == 1", evaluated("FREE = MOST_FREE[TAX_CLASS]")),
        evaluated("NET = BASE.subtract(FREE)"),
        branch("NET.compareTo(BigDecimal.ZERO) == -1", evaluated("NET = NOTHING")),
        evaluated("X = NET.divide(BigDecimal.valueOf(TAX_CLASS == 3 ? 2 : 1), 0, BigDecimal.ROUND_DOWN)"),
        tariff(),
        branch("TAX_CLASS == 3", evaluated("T = T.multiply(BigDecimal.valueOf(2))")),
        evaluated(f"TAX_{kind} = T.multiply(HUNDRED).divide(TWELVE, 0, BigDecimal.ROUND_DOWN)"),
        evaluated(f"TAXES = TAXES.add(TAX_{kind})"),
    ])


def inputs():
    """Names, types and defaults."""
    named = [("PERIOD", "int", "2"), ("TAX_CLASS", "int", "1")]
    named += [(f"AMOUNT_{number}", "BigDecimal", "BigDecimal.ZERO") for number in range(1, AMOUNTS + 1)]
    return named + [(f"RATE_{number}", "BigDecimal", "BigDecimal.ZERO") for number in range(1, 5)]


def plan():
    declared = "".join(f'   <INPUT name="{name}" type="{kind}" default="{default}"/>\n' for name, kind, default in inputs())
    outputs = "".join(f'   <OUTPUT name="TAX_{kind}" type="BigDecimal"/>\n' for kind in range(1, KINDS + 1))
    internals = "".join(f'   <INTERNAL name="{name}" type="BigDecimal"/>\n' for name in ["BASE", "FREE", "NET", "X", "Y", "T"])
    calls = evaluated("TAXES = BigDecimal.ZERO") + "".join(f'<EXECUTE method="KIND_{kind}"/>' for kind in range(1, KINDS + 1))
    methods = "".join(f'  <METHOD name="KIND_{kind}">{method(kind)}</METHOD>\n' for kind in range(1, KINDS + 1))
    return (f"{HEAD}  <INPUTS>\n{declared}  </INPUTS>\n  <OUTPUTS>\n{outputs}   <OUTPUT name=\"TAXES\" type=\"BigDecimal\"/>\n  </OUTPUTS>\n"
            f"  <INTERNALS>\n{internals}  </INTERNALS>\n </VARIABLES>\n{CONSTANTS} <METHODS>\n  <MAIN>{calls}</MAIN>\n{methods} </METHODS>\n</PAP>\n")


def limits():
    ranges = ["[input.PERIOD]\nlow = 1\nhigh = 4\nplaces = 0\n", "[input.TAX_CLASS]\nlow = 1\nhigh = 6\nplaces = 0\n"]
    ranges += [f"[input.AMOUNT_{number}]\nlow = 0\nhigh = 1_000_000_000\nplaces = 0\n" for number in range(1, AMOUNTS + 1)]
    ranges += [f'[input.RATE_{number}]\nlow = 0\nhigh = "0.5"\nplaces = 4\n' for number in range(1, 5)]
    return "".join(ranges)


def main(folder):
    with open(f"{folder}/full.xml", "w") as file:
        file.write(plan())
    with open(f"{folder}/full.toml", "w") as file:
        file.write(limits())


if __name__ == "__main__":
    main(sys.argv[1])
