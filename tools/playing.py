"""Plays a program in a terminal on paper: in a pseudo-terminal, with keys, other sizes and waits."""

import errno
import fcntl
import os
import pty
import select
import signal
import struct
import termios
import time

from screen import Screen

# What stands on the terminal before: rows of text, and among them a program that ran on the alternate screen and left it.
ROWS = 40
BEFORE = "".join("\x1b[?1049h\x1b[2J\x1b[H\x1b[?1049l" * (n == 11) + f"row {n}\r\n" for n in range(1, ROWS + 1))
PROMPT = "> "
# How many seconds a program has for what it does at most.
MOST = 30.0
# Keys that have a name.
NAMED = {
    "Enter": b"\r",
    "Esc": b"\x1b",
    "Tab": b"\t",
    "Space": b" ",
    "Backspace": b"\x7f",
    "Up": b"\x1b[A",
    "Down": b"\x1b[B",
    "Right": b"\x1b[C",
    "Left": b"\x1b[D",
    "Home": b"\x1b[H",
    "End": b"\x1b[F",
    "PageUp": b"\x1b[5~",
    "PageDown": b"\x1b[6~",
}


def bytes_of(key):
    """What a terminal sends for a key: a name, Ctrl+X, Alt+X, or what is typed as it is."""
    if key.startswith("Alt+") and len(key) == 5:
        return b"\x1b" + key[4].encode()
    if key.startswith("Ctrl+") and len(key) == 6:
        return bytes([ord(key[5].upper()) & 0x1F])
    return NAMED.get(key, key.encode())


class Play:
    """A program that runs in a pseudo-terminal, and the screen that reads what it sends. All that was sent is kept, with the sizes between."""

    def __init__(self, line, words, source, size, folder, pause):
        """Begins: `line` is what the prompt shows, `words` what is called, `source` the file of standard input, if it isn't the terminal."""
        self.screen = Screen(*size)
        self.pause = pause
        self.sent = []
        self.show(f"{BEFORE}{PROMPT}{line}\r\n".encode())
        self.status = None
        self.child, self.terminal = pty.fork()
        if self.child == 0:
            self.become(words, source, folder)
        self.size(*size)

    def become(self, words, source, folder):
        """Becomes the program, in the child. It begins once the terminal has its size, and takes signals also where this was begun without them."""
        for number in (signal.SIGINT, signal.SIGQUIT, signal.SIGTSTP):
            signal.signal(number, signal.SIG_DFL)
        try:
            os.chdir(folder)
            for _ in range(100):
                if os.get_terminal_size(0).columns:
                    break
                time.sleep(0.01)
            if source is not None:
                os.dup2(os.open(source, os.O_RDONLY), 0)
            others = {name: value for name, value in os.environ.items() if name not in ("COLUMNS", "LINES")}
            os.execve(words[0], words, {**others, "TERM": "xterm-256color", "LC_ALL": "C.UTF-8"})
        except OSError as error:
            print(f"{words[0]}: {error.strerror}", end="\r\n", flush=True)
        os._exit(127)

    def show(self, sent):
        """Shows bytes on the screen, and gives the program its answers."""
        self.sent.append(sent)
        self.screen.feed(sent)
        while self.screen.answers:
            os.write(self.terminal, self.screen.answers.pop(0))

    def read(self, seconds):
        """Reads what comes within some seconds; whether something came."""
        if self.status is not None or not select.select([self.terminal], [], [], max(seconds, 0))[0]:
            return False
        try:
            sent = os.read(self.terminal, 65536)
        except OSError as error:
            if error.errno != errno.EIO:
                raise
            sent = b""
        if sent:
            self.show(sent)
            return True
        self.reap()
        return False

    def reap(self):
        """Takes the status of the program, as a shell says it."""
        status = os.waitstatus_to_exitcode(os.waitpid(self.child, 0)[1])
        self.status = status if status >= 0 else 128 - status

    def settle(self, patience):
        """Reads until the screen shows the same for a while, whatever comes; the first bytes have some seconds to come."""
        if not self.read(patience):
            return
        end = time.monotonic() + MOST
        rows, since = self.shown(), time.monotonic()
        while time.monotonic() < end and self.status is None:
            left = since + self.pause - time.monotonic()
            if left <= 0:
                return
            self.read(left)
            if self.shown() != rows:
                rows, since = self.shown(), time.monotonic()

    def shown(self):
        """What stands in the rows of the screen."""
        return ["".join(row) for row in self.screen.rows]

    def until(self, holds):
        """Reads until something holds, the program ended or its time is over; whether it holds."""
        end = time.monotonic() + MOST
        while not holds() and self.status is None and time.monotonic() < end:
            self.read(0.05)
        self.settle(self.pause)
        return holds()

    def wait_for_raw_mode(self):
        """Reads until keys come one by one, so that none that is typed is shown by the terminal itself."""
        self.until(lambda: not termios.tcgetattr(self.terminal)[3] & termios.ICANON)

    def wait(self, text):
        """Reads until a text stands in a row; whether it does."""
        return self.until(lambda: any(text in row for row in self.shown()))

    def type(self, keys):
        """Types keys, and waits until the screen is quiet after them."""
        for key in keys:
            if self.status is None:
                os.write(self.terminal, bytes_of(key))
                self.settle(self.pause * 3)

    def size(self, columns, height):
        """Gives the terminal another size, or its first."""
        fcntl.ioctl(self.terminal, termios.TIOCSWINSZ, struct.pack("HHHH", height, columns, 0, 0))
        if (columns, height) != (self.screen.columns, self.screen.height):
            self.sent.append((columns, height))
            self.screen.resize(columns, height)
            self.settle(self.pause * 5)

    def end(self):
        """Waits for the end, and shows the prompt; whether the program ended by itself."""
        has_ended = self.until(lambda: self.status is not None)
        self.close()
        self.show(PROMPT.encode())
        return has_ended

    def close(self):
        """Ends the program, if it runs."""
        if self.status is None:
            os.kill(self.child, signal.SIGTERM)
            self.reap()
        if self.terminal is not None:
            os.close(self.terminal)
            self.terminal = None
