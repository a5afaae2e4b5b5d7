#!/usr/bin/env bash
# Times the reading of rules texts of 1, 8 and 32 KiB: bytes per second, and the growth of time from size to size.
set -eu
cd "$(dirname "$0")/.."
(cd crates/text_bench && rt run >/dev/null)
python3 - crates/text_bench/out/text_bench <<'PY'
import itertools
import os
import subprocess
import sys
import tempfile

SIZES = [1024, 8192, 32768]
BYTES = 64 << 20  # read in each run
RUNS = 5          # the fastest of them counts


def rules():
    yield "; a board of cells, and two roles that move in turn"
    yield "(role ann)\n(role bob)\n(init (control ann))"
    for n in itertools.count(1):
        x, y = n % 8 + 1, n // 8 % 8 + 1
        role, other = ("ann", "bob") if n % 2 else ("bob", "ann")
        yield (
            f"(init (cell {x} {y} blank))\n"
            f"(<= (legal {role} (move {x} {y}))\n"
            f"    (true (control {role}))\n"
            f"    (true (cell {x} {y} blank))\n"
            f"    (not (true (cell {y} {x} {other}))))\n"
            f"(<= (next (cell {x} {y} {role})) (does {role} (move {x} {y}))) ; taken\n"
            f"(<= (sees {other} (moved {role})) (does {role} (move {x} {y})))"
        )


def text(size):
    lines = []
    left = size
    for rule in rules():
        if len(rule) + 1 > left:
            break
        lines.append(rule + "\n")
        left -= len(rule) + 1
    return "".join(lines) + " " * left


def nanoseconds(program, path, times):
    out = subprocess.run([program, path, str(times)], check=True, capture_output=True, text=True)
    return int(out.stdout)


before = None
with tempfile.TemporaryDirectory() as folder:
    for size in SIZES:
        path = os.path.join(folder, "rules")
        with open(path, "w") as file:
            file.write(text(size))
        times = BYTES // size
        best = min(nanoseconds(sys.argv[1], path, times) for _ in range(RUNS))
        each = best / times
        line = f"{size:6} bytes: {each / 1000:9.2f} us a reading, {size * 1e9 / each:14,.0f} bytes per second"
        if before:
            line += f", {each / before[1]:.2f} times the time for {size / before[0]:.0f} times the bytes"
        print(line)
        before = size, each
PY
