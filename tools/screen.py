"""A terminal on paper: it reads the bytes that programs send, and says what stands on its screen and in its history, and where the cursor is.

Colours and other renditions are left out, and so is all that no program here sends. Where terminals differ in what is sent, it is done as in
tmux. What becomes of a wide character that an edit cuts, and of edits while the last column waits to wrap, is one way of several.
"""

import codecs
import re
import unicodedata

# A sequence, a control character, or text. What comes in pieces is waited for.
TOKEN = re.compile(
    r"\x1b\[(?P<mark>[<=>?]?)(?P<numbers>[\d;:]*)(?P<between>[ -/]*)(?P<final>[@-~])"
    r"|\x1b[P\]X^_][^\x07\x1b]*(?:\x07|\x1b\\)"
    r"|\x1b(?P<escape>[ -/]*[0-OQ-WYZ\\`-~])"
    r"|(?P<control>[\x00-\x1a\x1c-\x1f\x7f])"
    r"|(?P<text>[^\x00-\x1f\x7f]+)"
)
HALF = re.compile(r"\x1b(?:\[[<=>?]?[\d;:]*[ -/]*|[P\]X^_][^\x07\x1b]*\x1b?|[ -/]*)")


def width(char):
    """How many columns a character takes."""
    if unicodedata.category(char) in ("Mn", "Me", "Cf"):
        return 0
    return 2 if unicodedata.east_asian_width(char) in "WF" else 1


class Screen:
    """A screen, the rows that scrolled off it, and its cursor. A cell is what one column shows; the second half of a wide character is empty."""

    def __init__(self, columns, height):
        self.columns, self.height = columns, height
        self.decoder = codecs.getincrementaldecoder("utf-8")("replace")
        self.pending = ""
        self.answers = []
        self.history = []
        self.reset()

    def reset(self):
        """As when it is switched on, but for the history."""
        self.rows = self.blank(self.height)
        self.x = self.y = 0
        self.is_full = False  # The last column is written, and the next character wraps.
        self.is_seen = self.wraps = True
        self.inserts = self.is_origin = False
        self.saved = (0, 0)
        self.main = None  # The rows of the main screen, while the alternate one is shown.
        self.left = None  # Where the cursor was when the main screen was left last.
        self.set_margins(0, self.height)

    def blank(self, count):
        return [[" "] * self.columns for _ in range(count)]

    def feed(self, sent):
        """Reads bytes."""
        text, at = self.pending + self.decoder.decode(sent), 0
        while at < len(text):
            token = TOKEN.match(text, at)
            if token:
                self.obey(token)
                at = token.end()
            elif HALF.fullmatch(text, at):
                break
            else:
                # A sequence that another one cuts off.
                at += max(HALF.match(text, at).end() - at, 1)
        self.pending = text[at:]

    def obey(self, token):
        """Does what a sequence, a control character or a text says."""
        if token["text"]:
            for char in token["text"]:
                self.put(char)
        elif token["control"]:
            self.control(token["control"])
        elif token["escape"]:
            self.escape(token["escape"])
        elif token["final"]:
            numbers = [int(part.partition(":")[0] or 0) for part in token["numbers"].split(";")]
            if token["mark"] == "?" and token["final"] in "hl":
                for number in numbers:
                    self.set_mode(number, token["final"] == "h")
            elif not token["mark"] and not token["between"]:
                self.sequence(token["final"], numbers)

    # Text.

    def put(self, char):
        """Writes a character at the cursor."""
        columns = width(char)
        if columns == 0 or columns > self.columns:
            self.join(char)
            return
        if self.wraps and (self.is_full or self.x + columns > self.columns):
            self.x = 0
            self.feed_line()
        row = self.rows[self.y]
        x = min(self.x, self.columns - columns)
        if self.inserts:
            row[x:x] = [" "] * columns
            del row[self.columns :]
        self.uncover(x, x + columns)
        row[x : x + columns] = [char] + [""] * (columns - 1)
        self.is_full = x + columns == self.columns
        self.x = min(x + columns, self.columns - 1)

    def join(self, char):
        """Writes a character of no columns to the one before the cursor."""
        row, x = self.rows[self.y], self.x if self.is_full else self.x - 1
        while x > 0 and row[x] == "":
            x -= 1
        if x >= 0:
            row[x] += char

    def uncover(self, start, end):
        """Blanks the halves of wide characters that columns from one to another would leave."""
        row = self.rows[self.y]
        if start < self.columns and row[start] == "" and start > 0:
            row[start - 1] = row[start] = " "
        if end < self.columns and row[end] == "":
            row[end] = " "

    def control(self, char):
        if char == "\r":
            self.x = 0
        elif char in "\n\v\f":
            self.feed_line()
        elif char == "\b":
            self.x = max(self.x - 1, 0)
        elif char == "\t":
            self.x = min(self.x // 8 * 8 + 8, self.columns - 1)
        if char in "\r\n\v\f\b\t":
            self.is_full = False

    # Rows that move.

    def set_margins(self, top, bottom):
        self.top, self.bottom = top, bottom

    def feed_line(self):
        """Moves the cursor down; at the last row of the margins they scroll."""
        self.is_full = False
        if self.y == self.bottom - 1:
            self.scroll_up(1)
        elif self.y < self.height - 1:
            self.y += 1

    def scroll_up(self, count):
        """Scrolls the rows between the margins up; those that leave the main screen at its top go to the history."""
        for _ in range(min(count, self.bottom - self.top)):
            row = self.rows.pop(self.top)
            if self.top == 0 and self.main is None:
                self.history.append(row)
            self.rows.insert(self.bottom - 1, self.blank(1)[0])

    def turn(self, top, count):
        """Moves the rows from one to the margin's end down, or up by a count below 0; blank ones come in."""
        moved = max(min(count, self.bottom - top), top - self.bottom)
        part, new = self.rows[top : self.bottom], self.blank(abs(moved))
        part = new + part[: len(part) - moved] if moved > 0 else part[-moved:] + new
        self.rows[top : self.bottom] = part

    # Sequences.

    def escape(self, name):
        if name == "7":
            self.saved = (self.x, self.y)
        elif name == "8":
            self.move(*self.saved)
        elif name == "D":
            self.feed_line()
        elif name == "E":
            self.x = 0
            self.feed_line()
        elif name == "M" and self.y == self.top:
            self.turn(self.top, 1)
        elif name == "M":
            self.move(self.x, self.y - 1)
        elif name == "c":
            self.reset()

    def move(self, x, y):
        """Moves the cursor to a column and a row of the screen, or as near to it as there is one."""
        self.x, self.y = max(min(x, self.columns - 1), 0), max(min(y, self.height - 1), 0)
        self.is_full = False

    def move_by(self, columns, rows):
        """Moves the cursor; it doesn't leave the margins."""
        top = self.top if self.y >= self.top else 0
        bottom = self.bottom if self.y < self.bottom else self.height
        self.move(self.x + columns, max(min(self.y + rows, bottom - 1), top))

    def sequence(self, final, numbers):
        """Does what ESC [ NUMBERS FINAL says."""
        first, count = numbers[0], max(numbers[0], 1)
        if final in "Hf":
            column = numbers[1] if len(numbers) > 1 else 1
            self.move(column - 1, count - 1 + (self.top if self.is_origin else 0))
        elif final in "ABCDEF":
            columns, rows = {"A": (0, -1), "B": (0, 1), "C": (1, 0), "D": (-1, 0), "E": (0, 1), "F": (0, -1)}[final]
            self.move_by(columns * count, rows * count)
            self.x = 0 if final in "EF" else self.x
        elif final in "G`":
            self.move(count - 1, self.y)
        elif final == "d":
            self.move(self.x, count - 1)
        elif final == "J":
            self.erase_screen(first)
        elif final == "K":
            self.erase(*((self.x, self.columns), (0, self.x + 1), (0, self.columns))[min(first, 2)])
        elif final == "X":
            self.erase(self.x, min(self.x + count, self.columns))
        elif final in "@P":
            self.turn_cells(count if final == "@" else -count)
        elif final in "LM":
            if self.top <= self.y < self.bottom:
                self.turn(self.y, count if final == "L" else -count)
            self.is_full = False
        elif final == "S":
            self.scroll_up(count)
        elif final == "T":
            self.turn(self.top, count)
        elif final == "r":
            bottom = numbers[1] if len(numbers) > 1 and numbers[1] else self.height
            if count < min(bottom, self.height):
                self.set_margins(count - 1, min(bottom, self.height))
                self.move(0, self.top if self.is_origin else 0)
        elif final in "hl" and 4 in numbers:
            self.inserts = final == "h"
        elif final == "n" and first == 6:
            self.answers.append(f"\x1b[{self.y + 1};{self.x + 1}R".encode())
        elif final == "s":
            self.escape("7")
        elif final == "u":
            self.escape("8")

    def erase(self, start, end):
        """Blanks columns of the cursor's row."""
        self.uncover(start, end)
        self.rows[self.y][start:end] = [" "] * (end - start)

    def erase_screen(self, which):
        if which == 3:
            self.history.clear()
            return
        if which == 0:
            self.erase(self.x, self.columns)
            self.rows[self.y + 1 :] = self.blank(self.height - self.y - 1)
        elif which == 1:
            self.erase(0, self.x + 1)
            self.rows[: self.y] = self.blank(self.y)
        else:
            self.rows = self.blank(self.height)

    def turn_cells(self, count):
        """Moves the cells from the cursor on to the right, or to the left by a count below 0; blank ones come in."""
        row = self.rows[self.y]
        moved = max(min(count, self.columns - self.x), self.x - self.columns)
        self.uncover(self.x, min(self.x - min(moved, 0), self.columns))
        part, new = row[self.x :], [" "] * abs(moved)
        row[self.x :] = new + part[: len(part) - moved] if moved > 0 else part[-moved:] + new
        if row[-1] and width(row[-1][0]) == 2:
            row[-1] = " "

    def set_mode(self, number, is_on):
        if number == 7:
            self.wraps = is_on
        elif number == 6:
            self.is_origin = is_on
            self.move(0, self.top if is_on else 0)
        elif number == 25:
            self.is_seen = is_on
        elif number in (47, 1047, 1049):
            self.show_alternate(is_on, number == 1049)

    def show_alternate(self, is_on, is_cursor_kept):
        """Shows the alternate screen, or the main one. The main one's cursor comes back even if that one is shown, as in tmux."""
        if is_on and self.main is None:
            self.main, self.rows = self.rows, self.blank(self.height)
            if is_cursor_kept:
                self.left = (self.x, self.y)
        elif not is_on:
            if self.main is not None:
                self.rows, self.main = self.main, None
                self.fit()
            if is_cursor_kept and self.left is not None:
                self.move(*self.left)

    # Another size.

    def resize(self, columns, height):
        """Takes another size. Rows aren't broken anew: they are cut, or get blanks."""
        self.columns, self.height = columns, height
        self.set_margins(0, height)
        self.fit()
        self.move(self.x, self.y)

    def fit(self):
        """Makes the rows that are shown as many and as long as the screen's."""
        while len(self.rows) > self.height:
            if self.y < len(self.rows) - 1:
                self.rows.pop()
                continue
            row = self.rows.pop(0)
            self.y -= 1
            if self.main is None:
                self.history.append(row)
        while len(self.rows) < self.height:
            self.rows += self.blank(1)
        self.rows = [(row + [" "] * self.columns)[: self.columns] for row in self.rows]
