#!/usr/bin/env python3
"""Places in crates/*/src that may read like an older language, point by point, by their text alone.

    python3 tools/count_forms.py [--list] [FOLDER]

FOLDER is the top of a repository (here by default). --list prints each place. A line counts once for each rule that it meets.
"""
import collections
import glob
import re
import sys

KEYWORDS = set("""as break const continue else enum false fn for if impl in let loop match mod move mut pub ref return self Self
static struct trait true use where while Ok Err Some None""".split())


def sources(top):
    for path in sorted(glob.glob(top + "/crates/*/src/**/*.rt", recursive=True)):
        yield path[len(top) + 1:], open(path).read()


def code_of(text):
    """The text without comments, clauses and ghost items, lines kept."""
    out = []
    for line in text.split("\n"):
        bare = line.strip()
        if bare.startswith(("//", "ghost ", "requires", "ensures", "#![", "#[tactic")):
            line = ";" if bare.endswith(";") and bare.startswith("ensures") else ""
        out.append(line)
    return "\n".join(out)


def functions(code):
    """(line, name, head, body) of each function with a body."""
    for m in re.finditer(r"\bfn (\w+)", code):
        open_at = code.find("{", m.end())
        semicolon = code.find(";", m.end())
        if open_at < 0 or (0 <= semicolon < open_at and "[" not in code[m.end():semicolon]):
            continue
        depth, at = 0, open_at
        while at < len(code):
            if code[at] == "{":
                depth += 1
            elif code[at] == "}":
                depth -= 1
                if depth == 0:
                    break
            at += 1
        yield code.count("\n", 0, m.start()) + 1, m.group(1), code[m.start():open_at], code[open_at:at + 1]


def skeleton(body):
    """The body with every name, number and literal replaced, so that functions differing in these alone are equal."""
    body = re.sub(r'b?"(\\.|[^"\\])*"', " LIT ", body)
    body = re.sub(r"b?'(\\.|[^'\\])'", " LIT ", body)
    tokens = re.findall(r"\w+|[^\w\s]", body)
    return tuple(t if t in KEYWORDS or not re.match(r"\w", t) else ("LIT" if t[0].isdigit() else "NAME") for t in tokens)


def enums(code):
    for m in re.finditer(r"enum (\w+)[^{]*\{(.*?)\n\}", code, re.S):
        variants = [v for v in re.findall(r"^\s*(\w+(?:\([^)]*\)|\s*\{[^}]*\})?),?$", m.group(2), re.M)]
        yield code.count("\n", 0, m.start()) + 1, m.group(1), variants


LINES = {
    "1b a flag beside a value": r"\bbool, \w+: |: \w+, \w+: bool|^\s+\w+: bool,",
    "1c a number for a value or a kind": r"\bcode: u16|-> u64|\w as u8\b|const WANT_OF_MEMORY",
    "3a a loop that counts by hand": r"^\s*while .*[<>]",
    "3b an index or a counter stepped by hand": r"[+-]= 1;|saturating_add\(1\)",
    "4a equality or order written by hand": r"^impl (PartialEq|Eq|PartialOrd|Ord|Clone|Copy|Debug)\b",
    "4b a conversion written by hand": r"fn (byte_of|of|signed|value_of)\(|^\s*place: n\.place,",
    "4c a line printed in more than one place": r"refused \{|accepted: \{|fn (kind_of|written|print_token|accepted|refused)\b",
    "4d bytes compared by a function of our own": r"\bsame_bytes\(",
    "5a a production's three parameters": r"r: &mut Reader<'a>(, |,$)|^\s*r: &mut Reader<'a>,",
    "6a a length or a capacity beside": r"\blen: usize|vec_capacity",
    "6b rows as a span of another table": r"struct Span|: Span,",
    "6c bounds looked at by hand": r"if \w+ >= \w+(\.\w+)*\.len\(\) \{|&\w+\[0\.\.0\]",
    "7a a switch on what to do": r"enum Task|match task|while \w+_turn\(|fn \w+_turn\b",
}
CLAUSES = {
    "5b `on` beside `told`": r"^\s*ensures on \{",
    "5c `kept` of a table that is not touched": r"^\s*ensures kept \{ \(drafted",
}


def main():
    args = [a for a in sys.argv[1:] if a != "--list"]
    top = args[0].rstrip("/") if args else "."
    found = collections.defaultdict(list)
    groups = collections.defaultdict(list)
    for path, text in sources(top):
        code = code_of(text)
        for n, line in enumerate(code.split("\n"), 1):
            for rule, pattern in LINES.items():
                if re.search(pattern, line):
                    found[rule].append(f"{path}:{n}: {line.strip()}")
        for n, line in enumerate(text.split("\n"), 1):
            for rule, pattern in CLAUSES.items():
                if re.search(pattern, line):
                    found[rule].append(f"{path}:{n}")
        for n, name, variants in enums(code):
            held = [v for v in variants if "(" in v or "{" in v]
            if len(variants) == 2 and len(held) == 1 or len(variants) <= 3 and not held:
                found["1a an enum of the shape of Option, Result or a flag"].append(f"{path}:{n}: {name} {variants}")
        for n, name, head, body in functions(code):
            bones = skeleton(body)
            if len(bones) >= 9:
                groups[bones].append(f"{path}:{n}: {name}")
    for members in groups.values():
        if len(members) > 1:
            found["2 functions alike but for names, types and constants"].append(" = ".join(members))
    for rule in sorted(set(LINES) | set(CLAUSES) | set(found)):
        places = found[rule]
        count = sum(p.count(" = ") + 1 for p in places) if rule.startswith("2") else len(places)
        print(f"{count:4} {rule}" + (f" (in {len(places)} groups)" if rule.startswith("2") else ""))
        if "--list" in sys.argv:
            for place in places:
                print("       " + place)


main()
