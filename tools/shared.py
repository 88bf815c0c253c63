"""What the tools share: the repository's top and its crates, `--help`, and errors of one line."""

import os
import signal
import subprocess
import sys
import threading

TOP = os.path.dirname(os.path.dirname(os.path.abspath(__file__)))
# The files of `crates/vectors` whose rows aren't calls of ratatui_core.
OTHER_ROWS = ("split.rows", "split_cases.rows", "keys.rows", "files.rows", "areas.rows", "views.rows", "fields.rows", "graphemes.rows")


# The processor seconds of what `ran` ran in this thread.
USED = threading.local()


def ran(given, at=TOP):
    """Runs a program in a folder, without input: its status, and what it said. Its processor seconds are added to `USED.seconds`."""
    how = {"stdin": subprocess.DEVNULL, "stdout": subprocess.PIPE, "stderr": subprocess.STDOUT, "text": True, "errors": "replace"}
    with subprocess.Popen(given, cwd=at, **how) as process:
        said = process.stdout.read()
        _, status, used = os.wait4(process.pid, 0)
        process.returncode = os.waitstatus_to_exitcode(status)
    USED.seconds = getattr(USED, "seconds", 0) + used.ru_utime + used.ru_stime
    return process.returncode, said


def refuse(why):
    """Ends the tool with an error of one line, and the status 2."""
    print(f"{os.path.basename(sys.argv[0])}: {why}", file=sys.stderr)
    sys.exit(2)


def words(about, flags=(), most=None):
    """The words of the command line. `--help` prints what the tool is; a flag that it doesn't have, or more than `most` other words, is refused."""
    given = sys.argv[1:]
    if "--help" in given or "-h" in given:
        signal.signal(signal.SIGPIPE, signal.SIG_DFL)
        print(about.strip())
        sys.exit(0)
    for word in given:
        if word.startswith("-") and word not in flags:
            refuse(f"no flag {word}; --help says which there are")
    others = [word for word in given if word not in flags]
    if most is not None and len(others) > most:
        refuse(f"{others[most]!r} is one word too many; --help says which it takes")
    return given


def number_after(given, flag, default):
    """The number after a flag, which are taken out of the words, or else the default."""
    if flag not in given:
        return default
    at = given.index(flag)
    if at + 1 >= len(given) or not given[at + 1].isdigit() or int(given[at + 1]) == 0:
        refuse(f"{flag} wants a number from 1 on")
    number = int(given[at + 1])
    del given[at : at + 2]
    return number


def crates():
    """The crates of crates.txt, in order."""
    with open(f"{TOP}/crates.txt", encoding="utf-8") as lines:
        names = (line.split("#")[0].partition(":")[0].strip() for line in lines)
        return [name for name in names if name]


def groups():
    """The groups of crates.txt: each one's name, and its crates with what crates.txt says that they stand on."""
    found = []
    with open(f"{TOP}/crates.txt", encoding="utf-8") as lines:
        for line in lines:
            if line.startswith("# "):
                found.append((line[2:].strip().rstrip("."), {}))
            elif ":" in line:
                name, _, below = line.partition(":")
                found[-1][1][name.strip()] = below.split("#")[0].split()
    return [group for group in found if group[1]]


COSTS = f"{TOP}/tools/costs.tsv"


def costs():
    """The processor minutes that each crate took in the last gate that proved it, as far as they are known."""
    if not os.path.isfile(COSTS):
        return {}
    with open(COSTS, encoding="utf-8") as lines:
        return {name: float(minutes) for minutes, name in (line.split() for line in lines)}


def write_costs(minutes):
    """Stores the minutes of the crates of crates.txt, in its order."""
    with open(COSTS, "w", encoding="utf-8") as file:
        file.writelines(f"{minutes[name]:.1f}\t{name}\n" for name in crates() if name in minutes)


def known(names):
    """These names, each of which crates.txt must have."""
    for name in names:
        if name not in crates():
            refuse(f"no crate {name} in crates.txt")
    return names


E = b"\x1b"
JUNK = E + b"[2J" + E + b"[H" + "".join(f"junk {n} 漢字 xxxxxxxx\r\n" for n in range(30)).encode()
# What another program may have left on a terminal, by name.
LEFT = {
    "nothing": b"",
    "rendition": E + b"[1;3;4;7;9;31;44mleft",
    "margins": E + b"[2;4r" + E + b"[3;7Hover",
    "hidden cursor": E + b"[?25l",
    "contents": JUNK,
    "wrap that waits": E + b"[999;999Hx",
    "autowrap off": E + b"[?7l",
    "insert": JUNK + E + b"[4h",
    "origin": E + b"[2;4r" + E + b"[?6h",
    "margins at the sides": E + b"[?69h" + E + b"[3;6s",
    "ESC ( 0": E + b"(0",
    "SO": E + b")0\x0e",
    "ESC % @": E + b"%@",
    "synchronized update": E + b"[?2026h",
    "half ESC": E,
    "half CSI": E + b"[3",
    "half OSC": E + b"]0;title",
    "half DCS": E + b"Pq",
    "half APC": E + b"_Gabc",
    "half character": b"\xe3\x81",
}


def built(crate):
    """The path of a program that `.ci/run` has built."""
    program = f"{TOP}/crates/{crate}/out/{crate}"
    if not os.path.exists(program):
        refuse(f"{crate} isn't built: .ci/run builds every program, (cd crates/{crate} && rt run < /dev/null) this one alone")
    return program
