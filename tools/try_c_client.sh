#!/usr/bin/env bash
# Builds the C client over the proved check, runs it on every text of tools/make_cases.py, and compares what it says with
# the reader in Python. Needs gcc and python3, which the gate does not.
set -eu
cd "$(dirname "$0")/.."
kit=$(dirname "$(rt doc)")
(cd crates/editor && rt lib)
mkdir -p target/clients
gcc -O2 -Wall -Wextra -Iinclude clients/check_plans.c crates/editor/out/libeditor.a "$kit/c/liblibc_c.a" -o target/clients/check_plans
python3 tools/try_c_client.py target/clients/check_plans
