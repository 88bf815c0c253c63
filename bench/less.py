#!/usr/bin/env python3
"""Shows texts in the pager and in less, each in a pseudo-terminal, and prints what a reader waits for.

    bench/less.py PAGER [MEGABYTES..]     PAGER is the program, as crates/pager_program/out/pager_program; texts of 1, 10 and 100 MB if none is said

For each program and text: the seconds to the first page, to the last one after `G`, and, from the top again, to the line that a search finds near
the end; the seconds of processor time of it all; and the most memory that it held, in megabytes. The text is lines of 80 bytes.
"""

import os
import pty
import select
import signal
import sys
import tempfile
import time
import tty

SIZE = b"\x1b[24;80R"
ASKS = b"\x1b[6n"
# How long a program may take for one thing, in seconds, and after how many without a byte it is done.
PATIENCE = 120
QUIET = 0.3


class Shown:
    """A program on a pseudo-terminal of 80 columns and 24 rows."""

    def __init__(self, words):
        self.pid, self.master = pty.fork()
        if self.pid == 0:
            tty.setraw(0)
            os.environ.update(TERM="xterm", COLUMNS="80", LINES="24")
            os.execvp(words[0], words)

    def until(self, text=b""):
        """Reads until a text was written and nothing comes any more; the seconds up to the last byte."""
        begun, last, seen = time.monotonic(), None, b""
        while True:
            wait = QUIET if last and text in seen else begun + PATIENCE - time.monotonic()
            if wait <= 0 or not select.select([self.master], [], [], wait)[0]:
                if last and text in seen:
                    return last - begun
                raise SystemExit(f"{text!r} isn't shown within {PATIENCE} seconds")
            piece = os.read(self.master, 65536)
            seen, last = (seen + piece)[-200000:], time.monotonic()
            for _ in range(piece.count(ASKS)):
                os.write(self.master, SIZE)

    def type(self, keys):
        os.write(self.master, keys)

    def end(self):
        """Types q; the seconds of processor time, and the megabytes held at most."""
        self.type(b"q")
        while select.select([self.master], [], [], 0.05)[0]:
            try:
                if not os.read(self.master, 65536):
                    break
            except OSError:
                break
        _, _, used = os.wait4(self.pid, 0)
        os.close(self.master)
        return used.ru_utime + used.ru_stime, used.ru_maxrss / 1024


def written(file, megabytes):
    """Writes a text of lines of 80 bytes; a word of its own stands near its end."""
    count = megabytes * 1_000_000 // 80
    with open(file, "w") as text:
        for number in range(count):
            word = "needle" if number == count - 100 else "straw."
            line = f"{number:09} the quick brown fox jumps over the lazy dog, and {word} and so on"
            text.write(f"{line:79}\n")


def measured(words):
    shown = Shown(words)
    first = shown.until(b"fox")
    shown.type(b"G")
    last = shown.until()
    shown.type(b"g")
    shown.until()
    shown.type(b"/needle")
    shown.until()
    shown.type(b"\r")
    found = shown.until(b"needle")
    return (first, last, found, *shown.end())


def main():
    if len(sys.argv) < 2 or sys.argv[1] in ("-h", "--help"):
        print(__doc__.strip())
        return 0 if len(sys.argv) > 1 else 2
    signal.signal(signal.SIGPIPE, signal.SIG_DFL)
    sizes = [int(word) for word in sys.argv[2:]] or [1, 10, 100]
    print("| text | program | first page, s | `G`, s | search, s | processor, s | memory, MB |")
    print("|---|---|---|---|---|---|---|")
    with tempfile.TemporaryDirectory() as folder:
        for megabytes in sizes:
            file = f"{folder}/text"
            written(file, megabytes)
            for name, words in (("pager", [sys.argv[1], file]), ("less", ["less", file])):
                first, last, found, used, held = measured(words)
                print(f"| {megabytes} MB | {name} | {first:.2f} | {last:.2f} | {found:.2f} | {used:.2f} | {held:.0f} |", flush=True)
    return 0


if __name__ == "__main__":
    sys.exit(main())
