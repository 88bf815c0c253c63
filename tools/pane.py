"""A pane of tmux that shows bytes, and its picture as `tools/look` has it."""

import os
import shutil
import subprocess
import tempfile
import time

from screen import width

LAST = 4


class Pane:
    """A pane of a server of tmux of its own, with nothing in it; it shows what comes by a pipe."""

    def __init__(self, size):
        self.folder = tempfile.mkdtemp()
        self.columns, self.height = size
        pipe = f"{self.folder}/pipe"
        os.mkfifo(pipe)
        self.tmux("-f", "/dev/null", "new-session", "-d", "-x", str(self.columns), "-y", str(self.height), f"stty raw -echo; exec cat {pipe}")
        self.tmux("set-option", "-g", "status", "off")
        self.resize(*size)
        self.pipe = os.open(pipe, os.O_WRONLY)

    def tmux(self, *words):
        return subprocess.run(["tmux", "-u", "-S", f"{self.folder}/tmux", *words], stdout=subprocess.PIPE, check=True).stdout.decode()

    def value(self, form):
        return self.tmux("display-message", "-p", form).strip()

    def rows(self, first, last):
        return [row.rstrip() for row in self.tmux("capture-pane", "-p", "-S", str(first), "-E", str(last)).split("\n")[:-1]]

    def resize(self, columns, height):
        self.columns, self.height = columns, height
        self.tmux("resize-window", "-x", str(columns), "-y", str(height))

    def show(self, sent):
        """Shows bytes, and takes the sizes that stand between them. A size waits until all before it was read."""
        for part in sent:
            if isinstance(part, tuple):
                time.sleep(0.3)
                self.resize(*part)
                time.sleep(0.3)
            else:
                os.write(self.pipe, part)

    def framed(self, row):
        return f"|{row}{' ' * (self.columns - sum(map(width, row)))}|"

    def picture(self, name, lost):
        """The lines of its picture; whether rows were lost it doesn't know."""
        is_alternate, is_seen, x, y, kept = map(int, self.value("#{alternate_on} #{cursor_flag} #{cursor_x} #{cursor_y} #{history_size}").split())
        yield name
        yield lost
        yield f"history: {kept} rows{', the last of them:' if kept else ''}"
        if kept:
            yield from map(self.framed, self.rows(-min(LAST, kept), -1))
        yield f"{'alternate screen' if is_alternate else 'screen'}: {self.columns}x{self.height}"
        for number, row in enumerate(self.rows(0, self.height - 1)):
            cursor = f" <- column {min(x, self.columns - 1) + 1}{'' if is_seen else ', not seen'}"
            yield self.framed(row) + (cursor if number == y else "")

    def like(self, lines, seconds=4.0):
        """The lines of its picture, once they are these, or else when the time is over."""
        end = time.monotonic() + seconds
        while (seen := list(self.picture(*lines[:2]))) != lines and time.monotonic() < end:
            time.sleep(0.05)
        return seen

    def close(self):
        self.tmux("kill-server")
        os.close(self.pipe)
        shutil.rmtree(self.folder, ignore_errors=True)
