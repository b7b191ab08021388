#!/usr/bin/env python3
"""The pictures of docs/ARCHITECTURE.md: draw.py writes docs/layers.svg and docs/correction.svg, from the top of the repository.

draw.py --check says whether they are up to date, and so does any call whether the layers are true: a crate stands on crates of lower
rows alone, or further right in its own row, by crates.txt; and each crate that the program stands on has a row."""
import sys

LAYERS = [
    ("the program", ["papcalc"]),
    ("the top call", ["pap_cli"]),
    ("scripts", ["script_run", "script_steps", "script_lang"]),
    ("what is told of a book", ["report_csv", "open_runs", "month_trace", "correction_ledger", "what_if", "book_file"]),
    ("what is told of a flowchart", ["plan_answers", "diagnostics", "plain_words"]),
    ("the book", ["recalc_engine", "book_edits", "book_year"]),
    ("pay runs", ["pay_run", "saved_items", "carry_bindings", "plan_calendar", "payroll_records"]),
    ("accepted flowcharts", ["pap_plan", "plan_text", "interval_analysis", "pap_compiler"]),
    ("what flowcharts mean", ["run_values", "interval_walk", "call_order", "pap_types", "pap_machine"]),
    ("texts", ["pap_expr", "expr_grammar", "expr_tokens", "plan_notes", "pap_reader", "range_faults", "limits_file"]),
    ("numbers and trees", ["interval_num", "pap_tree", "scaled_decimal"]),
    ("below all", ["messages", "outside", "rising_lists", "steps"]),
]

STEPS = [
    ("the line is read", "script_lang", "change anna 2026-01 2026-01-30 PAY=465000"),
    ("what stands against it is found, without memory", "book_edits", "no such run: refused, and nothing has changed"),
    ("the year is computed anew beside the book", "book_year", "from the first of its runs, in order of day"),
    ("the flowchart that holds on the day", "plan_calendar", ""),
    ("the inputs: the record's, carried ones, defaults", "carry_bindings", ""),
    ("the job: both texts and the inputs", "book_year", ""),
    ("what can fail is done: the book is changed", "recalc_engine", "out of memory before this: nothing has changed"),
    ("the answer is written", "script_steps", "then work, report and owed tell the corrected book"),
]
EACH_RUN = range(3, 6)

CAPTION = ("A crate stands on crates of lower rows alone, or on some further right in its own row. "
           "Beside these stand the tests and the companion programs.")
QUIET, CRATE = ' class="quiet"', ' class="crate"'
STYLE = """<style>
text { font-family: sans-serif; font-size: 13px; fill: #222; }
.crate { font-family: monospace; font-size: 12px; }
.quiet { fill: #666; font-size: 12px; }
rect { fill: #fff; stroke: #555; }
.page { fill: #fdfdfb; stroke: none; }
.row { fill: #eef2f6; stroke: none; }
.group { fill: none; stroke: #888; stroke-dasharray: 5 4; }
path { fill: none; stroke: #555; }
</style>
"""


def crates():
    lines = [line.split("#")[0].split(":") for line in open("crates.txt")]
    listed = {line[0].split()[0]: line[1].split() for line in lines if len(line) == 2}
    below_the_program, waiting = set(), ["papcalc"]
    while waiting:
        name = waiting.pop()
        below_the_program.add(name)
        waiting += [below for below in listed[name] if below in listed and below not in below_the_program]
    return {name: [below for below in listed[name] if below in listed] for name in sorted(below_the_program)}


def check_layers(stands_on):
    at = {name: (row, column) for row, (_, names) in enumerate(LAYERS) for column, name in enumerate(names)}
    lost = sorted(set(stands_on) - set(at))
    wrong = [(name, below) for name, names in stands_on.items() if name in at for below in names if at.get(below, at[name]) <= at[name]]
    if lost or wrong:
        sys.exit(f"draw: crates without a row: {lost}; crates that stand on one that isn't below them: {wrong}")


def escaped(text):
    return text.replace("&", "&amp;").replace("<", "&lt;")


def box(x, y, width, height, name="", more=""):
    text = f'<text x="{x + width / 2:g}" y="{y + height / 2 + 4:g}" text-anchor="middle" class="crate">{name}</text>' if name else ""
    return f'<rect x="{x:g}" y="{y:g}" width="{width:g}" height="{height:g}" rx="4"{more}/>{text}\n'


def say(x, y, text, more=""):
    return f'<text x="{x:g}" y="{y:g}"{more}>{escaped(text)}</text>\n'


def picture(width, height, title, parts):
    head = f'<svg xmlns="http://www.w3.org/2000/svg" viewBox="0 0 {width} {height}" width="{width}" height="{height}" role="img">\n'
    return f'{head}<title>{title}</title>\n{STYLE}<rect class="page" width="{width}" height="{height}"/>\n{"".join(parts)}</svg>\n'


def layers(stands_on):
    parts, y = [], 12
    for label, names in LAYERS:
        parts.append(box(12, y, 896, 40, more=' class="row"') + say(24, y + 24, label, QUIET))
        x = 190
        for name in (name for name in names if name in stands_on):
            width = 20 + 7.4 * len(name)
            parts.append(box(x, y + 7, width, 26, name))
            x += width + 10
        y += 46
    parts.append(say(24, y + 14, CAPTION, QUIET))
    return picture(920, y + 28, "The layers of papcalc", parts)


def correction():
    parts, y = [], 16
    for at, (what, crate, more) in enumerate(STEPS):
        if at == EACH_RUN.start:
            parts.append(box(24, y - 8, 872, 64 * len(EACH_RUN) + 60, more=' class="group"'))
            parts.append(say(40, y + 8, "each run of the year", QUIET))
            y += 20
        parts.append(box(60, y, 350, 36) + say(74, y + 23, what) + say(424, y + 23, crate, CRATE))
        parts.append(say(560, y + 23, more, QUIET))
        if at == EACH_RUN.stop - 1:
            parts.append(f'<path d="M150 {y + 36} v22 M360 {y + 36} v22"/>\n')
            parts.append(say(40, y + 74, "the old job of its day: outputs are kept"))
            parts.append(say(316, y + 74, "a new job: the machine runs it"))
            parts.append(say(560, y + 74, "pap_machine", CRATE) + say(660, y + 74, "the counter rises by its steps", QUIET))
            y += 50
        y += 36
        if at + 1 < len(STEPS):
            parts.append(f'<path d="M235 {y + (12 if at == EACH_RUN.stop - 1 else 0)} V{y + 28} m-5 -7 l5 7 l5 -7"/>\n')
        y += 28
    return picture(920, y, "The way of a correction", parts)


def main():
    stands_on = crates()
    check_layers(stands_on)
    for name, text in [("docs/layers.svg", layers(stands_on)), ("docs/correction.svg", correction())]:
        if sys.argv[1:] == ["--check"]:
            if open(name).read() != text:
                sys.exit(f"draw: {name} isn't what tools/draw.py writes")
        else:
            open(name, "w").write(text)
    print("draw: 2 pictures, docs/layers.svg and docs/correction.svg, are up to date")


if __name__ == "__main__":
    main()
