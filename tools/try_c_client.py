"""Runs a client on the texts of make_cases, and compares what it says with the oracle: try_c_client.py CLIENT"""
import pathlib
import subprocess
import sys
import tempfile

import make_cases
import plan_oracle


def expected(text):
    try:
        plan_oracle.read(text)
    except plan_oracle.Refused as fault:
        return f"refused {fault.number} at {fault.place}"
    return "accepted"


def main():
    texts = [make_cases.changed(pairs).encode() for _, *pairs in make_cases.cases()]
    texts += [bytes([b]) for b in range(256)] + [make_cases.PLAN.encode()[:n] for n in range(0, 900, 7)]
    with tempfile.TemporaryDirectory() as folder:
        paths = []
        for i, text in enumerate(texts):
            path = pathlib.Path(folder) / f"{i}.tpl"
            path.write_bytes(text)
            paths.append(str(path))
        said = subprocess.run([sys.argv[1], *paths], capture_output=True, text=True).stdout.splitlines()
    wanted = [f"{path}: {expected(text)}" for path, text in zip(paths, texts)]
    wrong = [pair for pair in zip(said, wanted) if pair[0] != pair[1]]
    for got, want in wrong:
        print(f"said {got}, wanted {want}")
    print(f"{len(texts)} texts, {len(wrong)} answered otherwise than the reader in Python")
    sys.exit(1 if wrong or len(said) != len(wanted) else 0)


main()
