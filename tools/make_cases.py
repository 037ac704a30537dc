"""Writes data/cases.txt and stdout of crates/cases: changes to the sample plan, and what the oracle says of each.

The file has the plan first, and then the cases. A case is written `~label|old|new`, with more pairs behind it where several texts are replaced; each replaces the first
place where the old text stands, and an empty old text stands for the whole plan. `<N:body>` is the body N times over, in
which `%` is the number of the turn, from 0.
"""
import pathlib
import re

import plan_oracle
from plan_changes import CHANGES, nested

TOP = pathlib.Path(__file__).parent.parent
PLAN = (TOP / "samples" / "bench.tpl").read_text()


def counters(more):
    return f"Counters {{ Passed, Failed<{more}:, C%> }}"


def before_main(more):
    """More flows in front of the main one."""
    return "Flow Main {", f"{more}Flow Main {{"


def long_item(clauses):
    return before_main(f"Flow Long {{ FlowItem A ProbeTest {{ {clauses}}} }} ")


ALL_COUNTERS = "Passed, Failed, " + ", ".join(f"C{i}" for i in range(30))
MENTIONS = f"<63:Result % {{ IncrementCounters {ALL_COUNTERS}; Return 0; }} >"


def mentions(last):
    """2016 mentions in 63 clauses, and a clause with the last ones; the sample has two before them and one behind."""
    return ("Counters { Passed, Failed }", counters(30), *long_item(f"{MENTIONS}Result 100 {{ IncrementCounters {last}; Return 0; }} "))


def some_counters(n):
    return ", ".join(ALL_COUNTERS.split(", ")[:n])


def values(listed):
    return long_item(f"Result {listed} {{ Return 0; }} ")


ONE_ITEM = "FlowItem A ProbeTest { Result 0 { Return 0; } } "
PAD = 65536 - len(PLAN)

# a label, and texts to replace with what takes their place
EDGES = [
    ("no bytes", "", ""),
    ("a blank", "", " "),
    ("65536 bytes", "MainFlow = Main; }\n", f"MainFlow = Main; }}\n<{PAD}:#>"),
    ("65537 bytes", "MainFlow = Main; }\n", f"MainFlow = Main; }}\n<{PAD + 1}:#>"),
    ("a name of 32 bytes", "TestPlan Bench", "TestPlan <32:a>"),
    ("a name of 33 bytes", "TestPlan Bench", "TestPlan <33:a>"),
    ("value 32767", "Result 1, 2 {", "Result 1, 32767 {"),
    ("value 32768", "Result 1, 2 {", "Result 1, 32768 {"),
    ("a string of 64 bytes", '"probe"', '"<64:x>"'),
    ("a string of 65 bytes", '"probe"', '"<65:x>"'),
    ("number 2147483647", "Bin Bad 1", "Bin Bad 2147483647"),
    ("number 2147483648", "Bin Bad 1", "Bin Bad 2147483648"),
    ("16 groups", " SortBinGroup", ' <13:BinGroup G% { Bin X% 1: ""; } > SortBinGroup'),
    ("17 groups", " SortBinGroup", ' <14:BinGroup G% { Bin X% 1: ""; } > SortBinGroup'),
    ("128 bins", " SortBinGroup", ' BinGroup More { <122:Bin M% %: ""; > } SortBinGroup'),
    ("129 bins", " SortBinGroup", ' BinGroup More { <123:Bin M% %: ""; > } SortBinGroup'),
    ("32 counters", "Counters { Passed, Failed }", counters(30)),
    ("33 counters", "Counters { Passed, Failed }", counters(31)),
    ("a 33rd counter that is declared before", "Counters { Passed, Failed }", "Counters { Passed, Failed<30:, C%>, Passed }"),
    ("128 tests", "Flow Probe {", "<126:Test R T% { L = 1; } >Flow Probe {"),
    ("129 tests", "Flow Probe {", "<127:Test R T% { L = 1; } >Flow Probe {"),
    ("64 flows", *before_main("<62:Flow F% { " + ONE_ITEM + "} >")),
    ("65 flows", *before_main("<63:Flow F% { " + ONE_ITEM + "} >")),
    ("512 items", *before_main("Flow Long { <509:FlowItem I% ProbeTest { Result 0 { Return 0; } } >} ")),
    ("513 items", *before_main("Flow Long { <510:FlowItem I% ProbeTest { Result 0 { Return 0; } } >} ")),
    ("1024 clauses", *long_item("<1018:Result % { Return 0; } >")),
    ("1025 clauses", *long_item("<1019:Result % { Return 0; } >")),
    ("2048 values", *values("30000<2040:, %>")),
    ("2049 values", *values("30000<2041:, %>")),
    ("a 2049th value with a minus", *values("30000<2044:, %>, -7")),
    ("a 2049th value with a minus, out of range", *values("30000<2044:, %>, -40000")),
    ("a 2049th value out of range", *values("30000<2044:, %>, 40000")),
    ("a 2049th value that is repeated", *values("30000<2044:, %>, 5")),
    ("2048 mentions", *mentions(some_counters(29))),
    ("2049 mentions", *mentions(some_counters(30))),
    ("a 2049th mention in a clause with others", *mentions(some_counters(31))),
    ("a 2049th mention of no counter", *mentions(some_counters(30) + ", Nothing")),
    ("a 2049th mention that is repeated", *mentions(some_counters(30) + ", Passed")),
    ("depth 8", *before_main(nested(7)), "FlowItem First Probe {", "FlowItem First D6 {"),
    ("depth 9", *before_main(nested(8)), "FlowItem First Probe {", "FlowItem First D7 {"),
    ("two leaves without a sort bin", ', Shelf;', ";", ", Repair; }", "; }"),
    ("two targets that are no items", "GoTo Second;", "GoTo Third;", "GoTo First;", "GoTo Fourth;"),
    ("a target that is no item, and a value returned and not listed", "GoTo Second; } Result 1 { Return 1; }", "GoTo Third; }"),
]


def expanded(text):
    def turns(found):
        return "".join(found.group(2).replace("%", str(turn)) for turn in range(int(found.group(1))))
    return re.sub(r"<(\d+):([^>]*)>", turns, text)


def changed(pairs):
    text = PLAN
    for old, new in zip(pairs[::2], pairs[1::2]):
        assert old in text, old
        text = text.replace(old, expanded(new), 1) if old else expanded(new)
    return text


def cases():
    """Each case: a label, and then texts to replace with what takes their place."""
    return [(f"{new.strip() or 'without ' + old.strip()}", old, new) for old, new in CHANGES] + EDGES


def main():
    lines, outcomes = [], []
    for label, *pairs in cases():
        label = label.replace("\n", " ").replace("\t", " ")
        lines.append("~" + "|".join([label, *pairs]))
        outcomes.append(f"{label}: {plan_oracle.outcome(changed(pairs).encode())}")
    crate = TOP / "crates" / "cases"
    (crate / "data" / "cases.txt").write_text(PLAN + "\n" + "\n".join(lines))
    (crate / "stdout").write_text("\n".join(outcomes) + "\n")


if __name__ == "__main__":
    main()
