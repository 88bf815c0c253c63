#!/usr/bin/env python3
"""Measures two builds of the bench beside each other, by workload: a round's instructions and user time, and the bytes that it sends.

    compare.py [--size WxH] [--also WxH] [--runs N] [--only WORKLOAD,..] [--jobs N] [--write] NAME=PROGRAM[,PROGRAM..] NAME=PROGRAM[,PROGRAM..]

The instructions are valgrind's (callgrind), which don't change with the machine's load; a round's are those of a run less those of one
with fewer rounds, so that the start of the process doesn't count. `--jobs N` counts in N processes at a time. Its time is the least user
time of N runs with many rounds, less that with a tenth of them; the programs run in turns. Without runs (`--runs 0`) no time is measured. Another size adds the instructions at
it. A ratio is that of the second program to the first; `-` stands for a program that doesn't know the workload. Of several programs under a
name the first that knows a workload runs it. With `--write` the table is also written to FIGURES.md beside this file.
"""
import argparse
import datetime
import os
import re
import resource
import subprocess
import sys
from concurrent.futures import ThreadPoolExecutor

HERE = os.path.dirname(os.path.abspath(__file__))
sys.path.insert(0, f"{os.path.dirname(HERE)}/tools")
sys.dont_write_bytecode = True
from shared import refuse

# All workloads that README.md names. The twin has the widgets of tui 0.19, and the peers have keys and areas.
WORKLOADS = (
    "app_text app_boxes app_colors app_wide app_few app_dashboard app_keys app_scroll "
    "draw_all draw_dots draw_none draw_wide inline_all inline_few insert_kept insert_1 insert_10 insert_1000 "
    "text_ascii text_wide line_ascii text_widget text_raw line_center line_right line_cut span_marks spans_2000 "
    "widths_letters widths_wide boxes_exact boxes_fuzzy diff_letters diff_empty diff_wide style reset sets fill_reset "
    "merge_same merge_half empty filled clone resize term_resize "
    "block paragraph_wrapped paragraph_long list_1000 list table_1000 table table_new tabs bars sparkline "
    "chart_line chart_dots canvas canvas_kept scrollbar keys_text keys_arrows keys_mouse area_type area_feed area_up split_3 split_8 split_20"
).split()
SECONDS = 0.25
FEW, MANY = 4, 10


def size_of(word):
    """The columns and rows that a word as 200x60 says."""
    if not re.fullmatch(r"[1-9]\d*x[1-9]\d*", word):
        refuse(f"{word!r} is no size such as 200x60")
    return tuple(map(int, word.split("x")))


def named(word):
    """The name and the programs that a word says."""
    name, _, said = word.partition("=")
    programs = said.split(",")
    if not all(os.access(program, os.X_OK) for program in programs):
        refuse(f"{word!r} is no NAME=PROGRAM, or there is no such program")
    return name, programs


def run(program, workload, size, rounds):
    """The user time of a run in seconds, and what it printed."""
    before = resource.getrusage(resource.RUSAGE_CHILDREN).ru_utime
    done = subprocess.run([program, workload, *map(str, size), str(rounds)], capture_output=True, text=True, check=True)
    return resource.getrusage(resource.RUSAGE_CHILDREN).ru_utime - before, done.stdout.strip()


def knows(program, workload, size):
    """Whether the program has the workload."""
    return subprocess.run([program, workload, *map(str, size), "1"], capture_output=True).returncode == 0


def able_ones(programs, workload, size):
    """Each name with the first of its programs that knows a workload, if one does."""
    found = [(name, next((each for each in known if knows(each, workload, size)), None)) for name, known in programs]
    return [(name, program) for name, program in found if program]


def result(program, workload, size, rounds):
    """What the programs have to agree on, and the bytes that were sent: those of an application may differ."""
    count, total = run(program, workload, size, rounds)[1].split()
    return (total, int(count)) if workload.startswith("app_") else (f"{count} {total}", 0)


def counted(program, workload, size, rounds):
    """The instructions of a run."""
    words = ["valgrind", "--tool=callgrind", "--callgrind-out-file=/dev/null", program, workload, *map(str, size), str(rounds)]
    done = subprocess.run(words, capture_output=True, text=True, check=True)
    return int(re.search(r"Collected : (\d+)", done.stderr).group(1))


def instructions(program, workload, size):
    """The instructions of a round in thousands."""
    return (counted(program, workload, size, MANY) - counted(program, workload, size, FEW)) / (MANY - FEW) / 1e3


def rounds_for(program, workload, size):
    """So many rounds that a run takes about SECONDS."""
    rounds = 20
    while True:
        time, _ = run(program, workload, size, rounds)
        if time > 0.05 or rounds > 10**8:
            return max(20, int(rounds * SECONDS / max(time, 1e-3)))
        rounds *= 4


def times(programs, workload, size, runs):
    """The time of a round of each program in microseconds."""
    many = {name: rounds_for(program, workload, size) for name, program in programs}
    least = {name: [float("inf"), float("inf")] for name, _ in programs}
    for _ in range(runs):
        for name, program in programs:
            for k, rounds in enumerate((many[name] // 10, many[name])):
                least[name][k] = min(least[name][k], run(program, workload, size, rounds)[0])
    return {name: (least[name][1] - least[name][0]) / (many[name] - many[name] // 10) * 1e6 for name, _ in programs}


def cells(names, values, decimals):
    """A cell for each program, and one for the ratio of the second to the first."""
    known = [values.get(name) for name in names]
    ratio = f"{known[1] / known[0]:.2f}" if None not in known and known[0] else "-"
    return "".join(" - |" if value is None else f" {value:.{decimals}f} |" for value in known) + f" {ratio} |"


def heads(names, unit):
    """The heads of the columns of a measure."""
    return "".join(f" {name}, {unit} |" for name in names) + " ratio |"


def write(table):
    """Writes FIGURES.md: how it was measured, and the table."""
    how = [word for word in sys.argv[1:] if "=" not in word and word != "--write"]
    head = (
        "# Figures\n\nWritten by `bench/compare.py --write`; bench/README.md says what is measured, and how.\n\n"
        f"`{' '.join(['compare.py', *how])}`, {datetime.date.today()}, version {version()}.\n\n"
    )
    with open(f"{HERE}/FIGURES.md", "w", encoding="utf-8") as file:
        file.write(head + "\n".join(table) + "\n")


def version():
    """The newest version that CHANGELOG.md names."""
    with open(f"{os.path.dirname(HERE)}/CHANGELOG.md", encoding="utf-8") as file:
        return re.search(r"^## (\S+)", file.read(), re.M).group(1)


def all_instructions(able, sizes, jobs):
    """The instructions of a round of each program, by workload and size, counted so many at a time."""
    asked = [(name, program, workload, size) for workload, programs in able.items() for name, program in programs for size in sizes]
    with ThreadPoolExecutor(jobs) as pool:
        found = pool.map(lambda each: instructions(*each[1:]), asked)
        return {(workload, size, name): count for (name, _, workload, size), count in zip(asked, found)}


def main():
    parser = argparse.ArgumentParser(description=__doc__, formatter_class=argparse.RawDescriptionHelpFormatter)
    parser.add_argument("--size", default="200x60")
    parser.add_argument("--also", default="")
    parser.add_argument("--runs", type=int, default=10)
    parser.add_argument("--only", default=",".join(WORKLOADS))
    parser.add_argument("--jobs", type=int, default=1)
    parser.add_argument("--write", action="store_true")
    parser.add_argument("programs", nargs=2, metavar="NAME=PROGRAM")
    parser.error = refuse
    options = parser.parse_args()
    sizes = [size_of(size) for size in (options.size, options.also) if size]
    programs = [named(word) for word in options.programs]
    names = [name for name, _ in programs]
    units = ["us"] * (options.runs > 0) + ["bytes"] + [f"kinstr. at {width}x{height}" for width, height in sizes]
    table = []

    def tell(line):
        print(line, flush=True)
        table.append(line)

    workloads = options.only.split(",")
    able = {workload: able_ones(programs, workload, sizes[0]) for workload in workloads}
    counts = all_instructions(able, sizes, options.jobs)
    tell("| workload |" + "".join(heads(names, unit) for unit in units))
    tell("|---|" + "---|" * (3 * len(units)))
    for workload in workloads:
        results = {name: result(program, workload, sizes[0], 10) for name, program in able[workload]}
        if len({agreed for agreed, _ in results.values()}) != 1:
            raise SystemExit(f"{workload}: no program knows it, or they print different results: {results}")
        row = cells(names, times(able[workload], workload, sizes[0], options.runs), 1) if options.runs > 0 else ""
        sent = {name: count / 10 for name, (_, count) in results.items() if count}
        row += cells(names, sent, 0) if sent else " | | |"
        for size in sizes:
            row += cells(names, {name: counts[workload, size, name] for name, _ in able[workload]}, 0)
        tell(f"| `{workload}` |{row}")
    if options.write:
        write(table)


if __name__ == "__main__":
    main()
