#!/usr/bin/env python3
"""Times the program `screenplay` over generated scripts, and prints the memory that it takes.

    bench/screenplay.py [NAME=]PROGRAM ..    crates/screenplay_program/out/screenplay_program where none is named

Each script runs over each program; the figures are the greatest memory in MiB and the least processor time of a few runs in seconds, with
their ratios to the first program's. The programs are started by `peak.c`, which `cc` compiles: a process begins with the peak of the one that
started it. It refuses where two programs print different screens.
"""

import hashlib
import os
import resource
import subprocess
import sys
import tempfile

sys.path.insert(0, f"{os.path.dirname(os.path.dirname(os.path.abspath(__file__)))}/tools")
sys.dont_write_bytecode = True
from shared import TOP, refuse, words


def inserts():
    yield "inline 80 24 4\n"
    for i in range(2000):
        yield f"text line {i} of the log\ninsert\n"
    yield "show\n"


def frames():
    letters = "abcdefghijklmnopqrstuvwxyz" * 3
    yield "screen 80 24\n"
    for i in range(29457):
        for row in range(24):
            yield f"text {f'frame {i} row {row} {letters}'[:62]}\n"
        yield "draw\n"
    yield "show\n"


def texts():
    yield "screen 80 24\n"
    for _ in range(50_000_000 // 13):
        yield "text letters\n"
    yield "draw\nshow\n"


def rows():
    yield "inline 80 24 4\n"
    for _ in range(65535):
        yield "text row\n"
    yield "insert\nshow\n"


def tall():
    yield "inline 80 24 65535\nshow\n"


SCRIPTS = {
    "2000 rows inserted one by one": inserts,
    "29457 frames of 24 lines": frames,
    "50 MB of lines of text": texts,
    "65535 rows inserted at once": rows,
    "a viewport of 65535 rows": tall,
}


def run(peak, program, script):
    """What a program prints, how much memory it took in MiB, and its processor time in seconds."""
    with open(script, "rb") as source, tempfile.TemporaryFile() as printed:
        done = subprocess.run([peak, program], stdin=source, stdout=printed, stderr=subprocess.PIPE, text=True)
        if done.returncode != 0:
            sys.exit(f"{program}: {done.stderr.strip()}")
        memory, taken = done.stderr.split()
        printed.seek(0)
        return hashlib.sha256(printed.read()).hexdigest(), int(memory) / 1024, float(taken)


def main():
    given = words(__doc__) or [f"port={TOP}/crates/screenplay_program/out/screenplay_program"]
    programs = [word.split("=", 1) if "=" in word else ("port", word) for word in given]
    for _, program in programs:
        if not os.access(program, os.X_OK):
            refuse(f"no program {program}")
    resource.setrlimit(resource.RLIMIT_CORE, (0, 0))
    with tempfile.TemporaryDirectory() as folder:
        peak = f"{folder}/peak"
        subprocess.run(["cc", "-O1", "-o", peak, f"{TOP}/bench/peak.c"], check=True)
        for title, made in SCRIPTS.items():
            script = f"{folder}/script"
            with open(script, "w") as file:
                file.writelines(made())
            first = None
            for name, program in programs:
                runs = [run(peak, program, script) for _ in range(3)]
                screen, memory, taken = runs[0][0], max(r[1] for r in runs), min(r[2] for r in runs)
                if first is None:
                    first = (screen, memory, taken)
                if screen != first[0]:
                    sys.exit(f"{title}: {name} prints another screen")
                print(f"{title}: {name} {memory:.1f} MiB ({memory / first[1]:.2f}), {taken:.2f} s ({taken / first[2]:.2f})", flush=True)


if __name__ == "__main__":
    main()
