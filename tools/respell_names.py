#!/usr/bin/env python3
"""Brings the names of this repository's definitions and lemmas to one spelling, once: words in snake case.

usage: python3 tools/respell_names.py          at the top of the repository, after the kit's own script and before any edit by hand

- `tokensFrom` and `file-kept` become `tokens_from` and `file_kept`, in specs/, proofs/ and the clauses of src/.
- Where a lemma would fall together with a definition, it gets `_lem` behind its name.
- Types, modules, functions of src/, names that the check makes of the code (goals, places), names of the library, strings and
  comments keep theirs, but for a definition's name between backquotes.
- The crate `bytes` becomes `text_bytes`, since the library has a crate of that name.
It prints each name that it gave and each pair of names that falls together in one file, and ends with status 1 where one does.
"""

import collections
import os
import re
import subprocess
import sys

RENAMED_CRATE = ("bytes", "text_bytes")
WORD = r"[A-Za-z_\u2115\u2124][A-Za-z0-9_\u2115\u2124'\u2032]*(?:-[A-Za-z0-9_\u2115\u2124'\u2032]+)*"
WORDS = re.compile(WORD)
CAMEL = re.compile(r"^[a-z][a-z0-9]*[A-Z]")
DECLARED = re.compile(r"^\s*(?:pattern )?(?:unfoldable )?(?:abbrev )?(?:pub )?(" + WORD + r")\s*(?:\{[^}]*\}\s*)?:\s*(\S+)?", re.M)
# names that would fall together with another in a file that has both
BY_HAND = {w: w.replace("-", "_") for w in ("a-decimal", "a-number", "a-string")}
BY_HAND |= {w: w + "_lem" for w in ("first_group", "number_fits", "items_kept", "with_item", "return_fits")}


def snake(name):
    name = name.replace("\u2032", "'")
    name = re.sub(r"(?<=[a-z0-9])([A-Z])", lambda m: "_" + m[1].lower(), name)
    return name.replace("-", "_")


def files(root):
    for folder, dirs, names in os.walk(os.path.join(root, "crates")):
        dirs[:] = sorted(d for d in dirs if d not in ("out", "must-fail", "data"))
        for n in sorted(names):
            if n.endswith((".antt", ".rt")):
                yield os.path.join(folder, n)


def read(path):
    with open(path, encoding="utf-8") as f:
        return f.read()


def write(path, text):
    with open(path, "w", encoding="utf-8") as f:
        f.write(text)


def pieces(text, mark):
    """The text in pieces: (is code, piece); comments begin with `mark`, strings stand between double quotes."""
    out = []
    for m in re.finditer(r'(?:%s[^\n]*)|b?"(?:[^"\\]|\\[\s\S])*"|b?\'(?:[^\'\\]|\\.)\'|(?:(?!%s)[^"\'])+|[\s\S]' % (mark, mark), text):
        out.append((not (m[0].startswith(mark) or m[0].startswith(('"', 'b"')) or re.fullmatch(r"b?'(?:[^'\\]|\\.)'", m[0])), m[0]))
    return out


def code_of(path, text):
    if path.endswith(".rt"):
        return pieces(text, "//")
    return [(not l.lstrip().startswith("--"), l) for l in text.splitlines(keepends=True)]


def in_function_folder(path):
    return "/proofs/" in path and path.split("/proofs/", 1)[1].count("/") > 0


def imports(text):
    """What a file brings in by name: (module, names)."""
    for m in re.finditer(r"(?m)^(?:ghost )?use ([\w.]+)\.\{([^}]*)\}", text):
        yield m[1], [re.split(r"\s+as\s+", n.strip()) for n in m[2].split(",")]


def own_crates(root):
    return sorted(os.listdir(os.path.join(root, "crates")))


def gathered(root, own):
    """The names with a dash or an inner capital that the repository declares itself."""
    camel, dashed, foreign, plain = set(), set(), set(), set()
    for p in files(root):
        t = read(p)
        for module, names in imports(t):
            if module.split(".")[1:2] and module.split(".")[1] not in own:
                foreign |= {n[0] for n in names}
        code = "".join(x for is_code, x in code_of(p, t) if is_code)
        for w in WORDS.findall(code):
            if CAMEL.match(w) and "-" not in w:
                camel.add(w)
            elif "-" not in w and p.endswith(".antt") and re.match(r"[a-z]", w):
                plain.add(w)
        if p.endswith(".antt"):
            if not in_function_folder(p):
                dashed |= {w for w in WORDS.findall(code) if "-" in w and re.match(r"[a-z]", w)}
            else:
                for m in DECLARED.finditer(code):
                    if "-" in m[1] and not (m[2] or "").startswith(("goal.", "given.")):
                        dashed.add(m[1])
    return camel - foreign, dashed - foreign, foreign, plain


def turned(root, own):
    camel, dashed, foreign, plain = gathered(root, own)
    names = {w: BY_HAND.get(w, snake(w)) for w in camel}
    taken = set(names.values())
    for w in sorted(dashed):
        to = snake(w)
        names[w] = BY_HAND.get(w, to + "_lem" if to in taken or to in plain else to)
    names |= {w: to for w, to in BY_HAND.items() if w in plain}
    return names, foreign


def respelt(path, text, names):
    local = in_function_folder(path)
    known = set()
    if local:
        for module, brought in imports(text):
            for n in brought:
                known |= set(n)
        known |= {m[1] for m in DECLARED.finditer(text) if not (m[2] or "").startswith(("goal.", "given."))}
        aliases = set(re.findall(r"(?m)^use [\w.]+ as (\w+)", text)) - {"goal", "given"}

    def one(m, piece):
        w = m[0]
        if w not in names:
            return w
        if local and "-" in w:
            before = re.search(r"([\w'-]+)\.$", piece[: m.start()])
            if before and before[1] not in aliases:
                return w
            if not before and piece[: m.start()].endswith("."):
                return w
            if not before and w not in known:
                return w
        return names[w]

    out = []
    for is_code, piece in code_of(path, text):
        if is_code:
            out.append(WORDS.sub(lambda m: one(m, piece), piece))
        else:
            out.append(re.sub(r"`(" + WORD + r")`", lambda m: "`" + names.get(m[1], m[1]) + "`", piece) if not piece.startswith(('"', 'b"')) else piece)
    return "".join(out)


def rename_crate(root):
    old, new = RENAMED_CRATE
    if not os.path.isdir(os.path.join(root, "crates", old)):
        return
    subprocess.run(["git", "mv", f"crates/{old}", f"crates/{new}"], cwd=root, check=True)
    for p in files(root):
        t = read(p)
        u = re.sub(r"(?m)^((?:pub )?use )%s::" % old, r"\1%s::" % new, t)
        u = u.replace(f"Rattle.{old}.", f"Rattle.{new}.")
        if u != t:
            write(p, u)
    p = os.path.join(root, "crates.txt")
    lines = [l if l.startswith("#") else re.sub(r"\b%s\b" % old, new, l) for l in read(p).splitlines(keepends=True)]
    write(p, "".join(lines))


def together(root, names):
    """Pairs of names that one file would spell alike, but for a definition and what it says of in src/."""
    bad = 0
    source = set()
    for p in files(root):
        if p.endswith(".rt"):
            source |= set(re.findall(r"\bfn (\w+)|(?m:^\s+pub (\w+):)", read(p)) and sum(re.findall(r"\bfn (\w+)|(?m:^\s+pub (\w+):)", read(p)), ()))
    for p in files(root):
        t = read(p)
        code = "".join(x for is_code, x in code_of(p, t) if is_code)
        seen = collections.defaultdict(set)
        for w in set(WORDS.findall(code)):
            if w in names or w not in source:
                seen[names.get(w, w)].add(w)
        for to, froms in sorted(seen.items()):
            if len(froms) > 1:
                bad += 1
                print(f"together: {os.path.relpath(p, root)}: {', '.join(sorted(froms))} -> {to}")
    return bad


def main():
    root = subprocess.run(["git", "rev-parse", "--show-toplevel"], capture_output=True, text=True, check=True).stdout.strip()
    own = own_crates(root)
    names, foreign = turned(root, own)
    bad = together(root, names)
    if "--look" in sys.argv:
        for w in sorted(names):
            print(f"{w} -> {names[w]}")
        return 0
    for p in list(files(root)):
        t = read(p)
        u = respelt(p, t, names)
        if u != t:
            write(p, u)
    rename_crate(root)
    for w in sorted(names):
        print(f"{w} -> {names[w]}")
    print(f"{len(names)} names; {bad} pairs in one file")
    return 1 if bad else 0


if __name__ == "__main__":
    raise SystemExit(main())
