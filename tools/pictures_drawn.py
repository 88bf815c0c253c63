"""Cases of widgets drawn at random, as `crates/row_widgets` reads them: of all that tui 0.19 has, whatever it draws."""

WORDS = ["one", "two", "a", "é", "コン", "日本", "x y z", "longer words", "Files", "bb", "the quick brown fox", "longwordthatdoesntfit", ""]
STYLES = ["r", "g", "b", "y", "R", "G", "B", "rG", "*", "^", "_", "/", "gB*", "kY", "n", "N", "m.", "~"]
BOUNDS = [(0, 10), (0, 1), (-10, 10), (5, 25), (0, 100), (-100, -90), (0, 1000), (-3, 2), (1000, 1010), (0, 360), (0, 0), (3, -3)]
LABELS = ["0", "5", "10", "low", "middle", "high", "日本", "é", "-100", "a b"]


class Draw:
    """What is drawn by a generator of numbers."""

    def __init__(self, numbers):
        self.numbers = numbers

    def often(self, share):
        return self.numbers.random() < share

    def one(self, things):
        return self.numbers.choice(things)

    def number(self, least, most):
        return self.numbers.randint(least, most)

    def style(self):
        return self.one(STYLES)

    def plain(self):
        return self.one(WORDS)

    def line(self):
        """A line: mostly one text, or spans with styles."""
        if self.often(0.6):
            return self.plain()
        spans = [f"{{{self.style()}}}{self.plain()}" for _ in range(self.number(1, 2))]
        return (self.plain() if self.often(0.5) else "") + "".join(spans)

    def front(self, share=0.25):
        return f"<{self.style()}>" if self.often(share) else ""

    def block_text(self):
        return "\\".join(self.line() for _ in range(self.one([1, 1, 1, 2, 3])))

    def styled(self, *names, share=0.3):
        return [f"{name}={self.style()}" for name in names if self.often(share)]

    def selected(self, count):
        """A selection, seldom past the end."""
        return f"selected={self.number(0, count if self.often(0.1) else max(count - 1, 0))}"

    def around(self, has_title=True):
        """A box around, and what stands there before."""
        options = []
        if self.often(0.25):
            options.append("box=" + (self.style() if self.often(0.5) else ""))
            options += self.styled("inside") + ([f"title={self.line()}"] if has_title and self.often(0.4) else [])
        if self.often(0.1):
            options.append(f"ground={self.style()}")
        return options

    def bounds(self, name):
        low, high = self.one(BOUNDS)
        return f"{name}={low},{high}", low, high

    # the options and the texts of each widget

    def block(self):
        options = ["borders=" + "".join(side for side in "tlrb" if self.often(0.7))] if self.often(0.6) else []
        options += [f"type={self.one(['rounded', 'double', 'thick'])}"] if self.often(0.4) else []
        options += self.styled("style", "lines") + ([f"align={self.one(['center', 'right'])}"] if self.often(0.5) else [])
        options += [f"ground={self.style()}"] if self.often(0.2) else []
        return options, [self.line()] if self.often(0.8) else []

    def paragraph(self):
        options = [f"wrap={self.one(['trim', 'keep'])}"] if self.often(0.6) else []
        options += [f"align={self.one(['center', 'right'])}"] if self.often(0.4) else []
        options += [f"scroll={self.number(0, 4)},{self.number(0, 6)}"] if self.often(0.3) else []
        texts = [" ".join(self.line() for _ in range(self.number(1, 4))) for _ in range(self.number(1, 4))]
        return options + self.styled("style") + self.around(), texts

    def list(self):
        count = self.number(0, 8)
        options = []
        if self.often(0.7):
            options.append(self.selected(count))
        options += [f"symbol={self.one(['>', '> ', '>>', '日', '->|'])}"] if self.often(0.6) else []
        options += ["repeat"] if self.often(0.2) else []
        options += ["from=bottom"] if self.often(0.3) else []
        texts = [self.front() + self.block_text() for _ in range(count)]
        return options + self.styled("style", "highlight") + self.around(), texts

    def share(self):
        if self.often(0.5):
            return f"percent={self.number(0, 100)}"
        whole = self.number(1, 40)
        return f"ratio={self.number(0, whole)},{whole}"

    def gauge(self):
        options = [self.share()] + ([f"label={self.front()}{self.plain()}"] if self.often(0.4) else [])
        options += ["unicode"] if self.often(0.4) else []
        return options + self.styled("bar", share=0.7) + self.styled("style") + self.around(), []

    def linegauge(self):
        options = [self.share()] + ([f"label={self.line()}"] if self.often(0.4) else [])
        options += [f"set={self.one(['thick', 'double'])}"] if self.often(0.3) else []
        options += [f"{name}={self.one('rgbykn')}" for name in ("filled", "unfilled") if self.often(0.6)]
        return options + self.styled("style") + self.around(), []

    def tabs(self):
        options = [f"selected={self.number(0, 5)}"] if self.often(0.8) else []
        options += [f"divider={self.front()}{self.one(['|', ' - ', '日', '/', ''])}"] if self.often(0.4) else []
        return options + self.styled("style", "highlight") + self.around(), [self.line() for _ in range(self.number(1, 5))]

    def width(self):
        return self.one([f"l{self.number(0, 9)}", f"p{self.one([10, 20, 25, 33, 50])}", f"m{self.number(0, 6)}", f"M{self.number(0, 8)}", f"r1/{self.number(2, 5)}"])

    def table(self):
        columns = self.number(1, 4)
        # Widths of one kind: ratatui divides areas otherwise than tui.
        widths = [f"l{self.number(1, 9)}" for _ in range(columns)] if self.often(0.7) else [self.width() for _ in range(columns)]
        options = ["widths=" + ",".join(widths)] + (["header"] if self.often(0.4) else [])
        options += [f"spacing={self.number(0, 3)}"] if self.often(0.4) else []
        count = self.number(1, 7)
        options += [self.selected(count - 1 if "header" in options else count)] if self.often(0.6) else []
        options += [f"symbol={self.one(['>', '> ', '>>', '日'])}"] if self.often(0.5) else []
        options += [f"height={self.number(1, 2)}"] if self.often(0.2) else []
        options += [f"margin={self.number(0, 2)}"] if self.often(0.25) else []
        texts = []
        for _ in range(count):
            cells = [self.front(0.15) + self.block_text() for _ in range(columns)]
            row = self.front(0.2)
            texts.append((row or ("<>" if cells[0].startswith("<") else "")) + ";".join(cells))
        return options + self.styled("style", "highlight") + self.around(), texts

    def values(self, count):
        most = self.one([1, 8, 9, 100, 5000])
        return [self.number(0, most) for _ in range(count)]

    def sparkline(self):
        options = ["data=" + ",".join(str(value) for value in self.values(self.number(1, 30)))]
        options += [f"max={self.number(0, 20)}"] if self.often(0.3) else []
        options += ["set=three"] if self.often(0.2) else []
        return options + self.styled("style", share=0.5) + self.around(), []

    def barchart(self):
        options = [f"width={self.number(1, 6)}"] if self.often(0.8) else []
        options += [f"gap={self.number(0, 3)}"] if self.often(0.6) else []
        options += [f"max={self.number(0, 120)}"] if self.often(0.3) else []
        options += ["set=three"] if self.often(0.2) else []
        texts = [f"{self.one(['a', 'bb', 'ccc', 'label', '日本', ''])}={value}" for value in self.values(self.number(1, 8))]
        return options + self.styled("style", "bars", "values", "labels") + self.around(), texts

    def point(self, x, y):
        place = lambda low, high: self.number(min(low, high) - (1 if self.often(0.1) else 0), max(low, high))
        return f"{place(*x)},{place(*y)}"

    def marker(self):
        return f"marker={self.one(['dot', 'block', 'bar', 'braille', 'braille'])}"

    def canvas(self):
        (across, *x), (up, *y) = self.bounds("x"), self.bounds("y")
        texts = []
        for _ in range(self.number(1, 5)):
            color = self.one("rgby-")
            place = lambda: self.point(x, y).replace(",", " ")
            texts.append(self.one([
                f"line {color} {place()} {place()}",
                f"rectangle {color} {place()} {self.number(0, 9)} {self.number(0, 9)}",
                f"points {color} " + " ".join(self.point(x, y) for _ in range(self.number(1, 6))),
                f"print {place()} {self.line() or 'here'}",
                "layer",
            ]))
        options = [self.marker(), across, up] + ([f"back={self.one('rgb')}"] if self.often(0.3) else [])
        return options + self.around(False), texts

    def axis(self, name, low, high):
        options = []
        if self.often(0.6):
            labels = [str(low), str(high)] if self.often(0.5) else [self.one(LABELS) for _ in range(self.number(2, 4))]
            options.append(f"{name}labels={','.join(labels)}")
            options += [f"{name}align={self.one(['center', 'right'])}"] if self.often(0.4) else []
        options += [f"{name}title={self.line()}"] if self.often(0.3) else []
        return options + self.styled(f"{name}style")

    def chart(self):
        (across, *x), (up, *y) = self.bounds("x"), self.bounds("y")
        texts = []
        for _ in range(self.number(1, 3)):
            points = " ".join(self.point(x, y) for _ in range(self.number(0, 6)))
            texts.append(f"{self.one(['r', 'g', 'b', '-', 'y*', 'rG'])} {points}")
        options = [self.marker(), f"kind={self.one(['line', 'scatter'])}", across, up] + self.axis("x", *x) + self.axis("y", *y)
        if self.often(0.3):
            options.append("names=" + ",".join(self.one(["a", "speed", "日本", ""]) for _ in texts))
            options += [f"legend={self.number(5, 20)},{self.number(2, 9)}"] if self.often(0.8) else []
        return options + self.styled("style") + self.around(), texts

    def case(self, kind):
        """A case of a widget, as a line."""
        options, texts = getattr(self, kind)()
        width, height = self.number(1, 30), self.number(1, 9)
        head = "\t".join([kind, f"{width}x{height}", *options])
        return f"{head}\t| {' | '.join(texts)}" if texts else head
