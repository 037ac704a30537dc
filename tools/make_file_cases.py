"""Writes crates/file_cases/src/cases.rt to standard output: one change each to the sample plan, and what the oracle says of it."""
import pathlib

import plan_oracle
from plan_changes import CHANGES, nested

SAMPLE = pathlib.Path(__file__).parent.parent / "samples" / "bench.tpl"
PLAN = SAMPLE.read_text()
PLAN = PLAN[PLAN.index("Version"):]


def counters(more):
    return "Counters { Passed, Failed, " + ", ".join(f"C{i}" for i in range(more)) + " }"


def groups(more):
    return " " + " ".join(f'BinGroup G{i} {{ Bin X{i} 1: ""; }}' for i in range(more)) + " SortBinGroup"


# the changes of both tables, and those that fill a table or nest flows, in the order of the table
CASES = [
    *CHANGES[:-5],
    ('Flow Main {', nested(8) + 'Flow Main {'),
    ('Flow Main {', nested(9) + 'Flow Main {'),
    *CHANGES[-5:],
    ('Counters { Passed, Failed }', counters(30)),
    ('Counters { Passed, Failed }', counters(31)),
    (' SortBinGroup', groups(13)),
    (' SortBinGroup', groups(14)),
]


def escaped(text):
    return text.replace("\\", "\\\\").replace('"', '\\"').replace("\n", "\\n").replace("\t", "\\t")


def outcome(text):
    """What the oracle says, with the counts of the tables and of all clauses as bare numbers."""
    try:
        name, plan = plan_oracle.read(text)
    except plan_oracle.Refused as fault:
        return f"refused {fault.number} at {fault.place} by {fault.finder}"
    counts = map(len, (plan.groups, plan.bins, plan.counters, plan.tests, plan.flows, plan.items))
    return " ".join(["accepted", name, *map(str, counts), str(plan.clauses)])


def main():
    print("// A plan that is accepted, and cases: each writes one text in place of another, and says what comes of it.\n")
    print(f'pub const PLAN: &str =\n    "{escaped(PLAN)}";\n')
    print("// Cases begin with `~`; old text, new text and outcome are parted by `|`.")
    print('pub const CASES: &str = "\\')
    for old, new in CASES:
        text = PLAN.replace(old, new, 1)
        print(f"    ~{escaped(old)}|{escaped(new)}|{outcome(text.encode())}\\")
    print('";')


main()
