"""Lays out what tools/ladder has read as a chart, and writes it as SVG. Widths are those of a wide font, so that nothing overlaps in another."""
from xml.sax.saxutils import escape

COLUMN, HEADER, LINE, MARGIN = 96, 58, 16, 24
INK, FAINT, GREEN, RED, BLUE, DARK, AMBER = "#1f2933", "#8a97a6", "#1f8f4e", "#cc2f3c", "#2f6db5", "#22252b", "#f2a900"
DEVICES = ["#8250c4", "#b3640c", "#0f7f8c", "#b0307e", "#4b5fc9", "#6b7a1e", "#8a4b32", "#3f7d5a"]
STYLES = {"plain": INK, "minor": FAINT, "acted": GREEN, "refused": RED, "paired": BLUE, "cut": "#9a6700", "dark": DARK}
WIDTHS = {letter: wide for wide, letters in ((0.29, "ijl|"), (0.33, " .,:;'I"), (0.41, "ftr()[]-/"), (0.55, "csz"), (0.60, "kvxy"), (0.84, "w"), (0.99, "mMW"),
                                             (0.76, "ABCDEFGHKLNOPQRSTUVXYZ")) for letter in letters}


def width(text, size, bold=False):
    return sum(WIDTHS.get(letter, 0.64) for letter in text) * size * (1.14 if bold else 1.0)


class Row:
    """What stands in a row: where it comes from, whom it reaches, and what is said of it. A colour is named by a node."""

    def __init__(self, first, last, reading):
        self.first, self.last, self.reading = first, last, reading
        self.source, self.colour, self.pill, self.hits, self.lines = None, None, None, [], []
        self.wave = self.is_message = self.is_again = False

    def say(self, style, text):
        self.lines.append((style, text))

    def say_of(self, node, symbol, style, text):
        self.hits.append((node, symbol))
        self.say(style, text)

    def height(self):
        return max(25, LINE * len(self.lines) + 9)


def clock(reading):
    """A reading in milliseconds as minutes, seconds and thousandths, with hours where there are some."""
    seconds, thousandths = divmod(reading, 1000)
    minutes, seconds = divmod(seconds, 60)
    hours, minutes = divmod(minutes, 60)
    return (f"{hours}:{minutes:02}" if hours else f"{minutes}") + f":{seconds:02}.{thousandths:03}"


def wrapped(words, room, size):
    """Lines of words that fit into this width."""
    lines, line = [], ""
    for word in words:
        longer = f"{line} {word}" if line else word
        if line and width(longer, size) > room:
            lines.append(line)
            longer = word
        line = longer
    return lines + [line] if line else lines


# ---- marks, each drawn around a place

def disc(radius, fill, ring, inner=""):
    return f'<circle r="{radius}" fill="{fill}" stroke="{ring}" stroke-width="1.8"/>{inner}'


def stroke(path, colour, thick=2.0):
    return f'<path d="{path}" fill="none" stroke="{colour}" stroke-width="{thick}" stroke-linecap="round" stroke-linejoin="round"/>'


CHECK, CROSS, MINUS, PLUS = "M-4 0.3 l2.8 3 l5 -6", "M-3 -3 L3 3 M3 -3 L-3 3", "M-3.4 0 L3.4 0", "M-3.6 0 L3.6 0 M0 -3.6 L0 3.6"
ARROW, WARNING = "M-3 0 L3 0 M0.4 -2.6 L3 0 L0.4 2.6", "M0 -3.4 L0 1.6 M0 4.4 L0 4.5"
POWER = "M-2.9 -2.3 A4.2 4.2 0 1 0 2.9 -2.3 M0 -5 L0 -0.6"
BOLT = f'<path d="M1.6 -7.4 L-4.6 1 L-0.6 1 L-1.8 7.4 L4.6 -1.6 L0.6 -1.6 Z" fill="{AMBER}"/>'
# each with what it means; the colour of a mark that has none is that of what is passed on
MARKS = {
    "acted": (disc(9, GREEN, "white", stroke(CHECK, "white", 2.3)), "acts on it"),
    "refused": (disc(7.5, "white", RED, stroke(CROSS, RED)), "refuses it"),
    "tunnelled": (disc(7, "currentColor", "white", stroke(ARROW, "white", 1.7)), "passes it on in a message"),
    "paired": (disc(8, BLUE, "white", stroke(PLUS, "white")), "is paired"),
    "entry": (disc(7, "white", BLUE, stroke(PLUS, BLUE, 1.8)), "knows a device from now on"),
    "unpaired": (disc(7, "white", BLUE, stroke(MINUS, BLUE, 1.8)), "unpaired, or dropped"),
    "minor": (disc(4.5, "white", FAINT), "isn't concerned"),
    "point": (disc(4.5, INK, "white"), "tells, or is told, something"),
    "armed": (disc(10, "white", AMBER, BOLT), "a cut or a fault is armed"),
    "cut": (disc(10, DARK, DARK, BOLT), "power cut"),
    "dark": (disc(7, DARK, DARK, stroke(CROSS, "#aab4c0", 1.8)), "has no power"),
    "off": (disc(7, DARK, DARK, stroke(MINUS, "#aab4c0", 1.8)), "switched off"),
    "up": (disc(8.5, "white", GREEN, stroke(POWER, GREEN, 1.9)), "power is back"),
    "halted": (f'<path d="M0 -9 L9 7 L-9 7 Z" fill="{AMBER}" stroke="white"/>{stroke(WARNING, DARK)}', "its disk has failed"),
}


def mark(symbol, x, y, colour, name=None):
    return f'<g class="{name or symbol}" color="{colour}" transform="translate({x:g} {y:g})">{MARKS[symbol][0]}</g>'


class Chart:
    def __init__(self, story, captions):
        self.story, self.parts, self.captions = story, [], captions
        nodes = story.nodes
        names = ["-"] if any(row.source == "-" for row in story.rows) else []
        for kind in ("device", "proxy", "sink"):
            names += [name for name, event in nodes.items() if event.keyword == kind]
        self.gutter = MARGIN + 16 + max([width(clock(row.reading), 11) for row in story.rows], default=0)
        self.names, self.at = names, {name: self.gutter + COLUMN * (place + 0.5) for place, name in enumerate(names)}
        devices = [name for name in names if name != "-" and nodes[name].keyword == "device"]
        self.colours = {name: "#5a6b7d" for name in names}
        self.colours.update({name: DEVICES[place % len(DEVICES)] for place, name in enumerate(devices)})
        self.colours["-"] = RED
        self.text_at = self.gutter + COLUMN * len(names) + 14
        self.heading = self.take_heading()
        texts = [self.text_at + width(text, 12.5, style == "acted") for row in story.rows for style, text in row.lines]
        self.width = max([*texts, MARGIN + width(self.heading[0], 19, True), 660]) + MARGIN
        self.y = MARGIN

    def take_heading(self):
        """The lines of the caption that stands above everything: the title first. There may be none."""
        if not self.captions or self.captions[0][0] > min((row.first for row in self.story.rows), default=1):
            return [""]
        heading, self.captions = self.captions[0][1], self.captions[1:]
        return [heading[0].rstrip("."), *heading[1:]]

    def add(self, text):
        self.parts.append(text)

    def text(self, x, y, text, size=12.5, colour=INK, anchor="start", more=""):
        self.add(f'<text x="{x:g}" y="{y:g}" font-size="{size}" fill="{colour}" text-anchor="{anchor}"{more}>{escape(text)}</text>')

    def title(self):
        if self.heading[0]:
            self.text(MARGIN, self.y + 18, self.heading[0], 19, more=' font-weight="700"')
            self.y += 30
            for line in wrapped(" ".join(self.heading[1:]).split(), self.width - 2 * MARGIN, 12.5):
                self.text(MARGIN, self.y + 12, line, colour="#52606d")
                self.y += 18
            self.y += 10

    def heads(self, y):
        """The boxes of the nodes, whose top is at this height."""
        for name in self.names:
            x, colour = self.at[name], self.colours[name]
            kind = "air" if name == "-" else self.story.nodes[name].keyword
            self.add(f'<rect x="{x - 43:g}" y="{y:g}" width="86" height="{HEADER - 12}" rx="8" fill="{"white" if kind in ("air", "device") else "#eef2f6"}" stroke="{colour}" stroke-width="1.8"/>')
            self.text(x, y + 16, "somebody" if name == "-" else name, 13, INK, "middle", ' font-weight="700"')
            if kind == "air":
                self.text(x, y + 29, "any sender", 9.5, FAINT, "middle")
                continue
            words = self.story.nodes[name].words
            self.text(x, y + 28, kind, 9.5, "#52606d", "middle")
            self.text(x, y + 40, words[1].upper(), 9.5, "#52606d", "middle")

    def caption(self, words):
        lines = wrapped(" ".join(words).split(), (self.width - 2 * MARGIN - 24) / 1.14, 12.5)
        height = 17 * len(lines) + 11
        self.y += 6
        self.add(f'<rect x="{MARGIN}" y="{self.y:g}" width="{self.width - 2 * MARGIN:g}" height="{height}" rx="5" fill="#eef2f6"/>')
        for place, line in enumerate(lines):
            self.text(MARGIN + 12, self.y + 18 + 17 * place, line, more=' font-weight="600"')
        self.y += height + 6

    def reach(self, row, y):
        """The line from where something comes to the nodes that it reaches."""
        x, colour = self.at[row.source], self.colours[row.colour]
        looks = f'stroke="{colour}" stroke-width="1.7"' + (' stroke-dasharray="7 4"' if row.is_message else "") + (' opacity="0.55"' if row.is_again else "")
        ends = [self.at[node] for node, _ in row.hits]
        for end in {min(ends + [x]), max(ends + [x])} - {x}:
            self.add(f'<line x1="{x:g}" y1="{y:g}" x2="{end:g}" y2="{y:g}" {looks}/>')
        for end in ends:
            if end != x:
                back = -1 if end > x else 1
                self.add(f'<path d="M{end + 10 * back:g} {y:g} l{7 * back} -4 l0 8 Z" fill="{colour}"/>')

    def pill(self, row, y):
        x, colour = self.at[row.source], self.colours[row.colour]
        half = width(row.pill, 10.5) / 2 + 8
        self.add(f'<rect x="{x - half:g}" y="{y - 9:g}" width="{2 * half:g}" height="18" rx="9" fill="{"white" if row.is_message else colour}" stroke="{colour}" stroke-width="1.5"/>')
        self.text(x, y + 3.7, row.pill, 10.5, colour if row.is_message else "white", "middle")
        if row.wave:
            for far in (7, 12, 17):
                self.add(stroke(f"M{x + half + far - 3:g} {y - far / 2.4:.1f} q{far / 3.2:.1f} {far / 2.4:.1f} 0 {far / 1.2:.1f}", colour, 1.6))

    def row(self, row):
        height = row.height()
        y = self.y + height / 2
        row.y = y
        self.add(f'<line x1="{self.gutter - 4:g}" y1="{y:g}" x2="{self.text_at - 6:g}" y2="{y:g}" stroke="#e4e9ee" stroke-width="1"/>')
        self.text(self.gutter - 10, y + 4, clock(row.reading), 11, "#52606d", "end")
        if row.source is not None and row.source in self.at:
            self.reach(row, y)
            if row.pill:
                self.pill(row, y)
        colour = self.colours.get(row.colour, INK)
        for node, symbol in row.hits:
            # a node that is reached by what it sent itself has its mark beside the pill
            beside = width(row.pill, 10.5) / 2 + 20 if row.pill and node == row.source else 0
            self.add(mark(symbol, self.at[node] + beside, y, colour))
        top = y - LINE * len(row.lines) / 2
        for place, (style, text) in enumerate(row.lines):
            bold = ' font-weight="700"' if style == "acted" else ""
            self.text(self.text_at, top + LINE * place + 12.3, text, 12.5, STYLES[style], "start", bold)
        self.y += height

    def lifelines(self, top, bottom):
        """The lines of the nodes, drawn below everything else; a sink without power has a black bar."""
        parts = []
        for name in self.names:
            x = self.at[name]
            parts.append(f'<line x1="{x:g}" y1="{top:g}" x2="{x:g}" y2="{bottom:g}" stroke="#c3ccd6" stroke-width="1.4"/>')
            phases = self.story.phases.get(name, [])
            ends = [self.story.rows[at].y for at, _ in phases[1:]] + [bottom]
            for (at, phase), end in zip(phases, ends):
                if phase != "runs":
                    begin = self.story.rows[at].y
                    parts.append(f'<rect x="{x - 6:g}" y="{begin:g}" width="12" height="{end - begin:g}" fill="{DARK if phase == "dark" else AMBER}" opacity="0.92"/>')
        return parts

    def legend(self):
        """What the marks mean that stand in this chart."""
        here = {symbol for row in self.story.rows for _, symbol in row.hits}
        self.y += 14
        x, colour = MARGIN + 6, "#5a6b7d"
        samples = [("line", "", "frame on the air"), ("line", ' stroke-dasharray="7 4"', "message")] + [("mark", symbol, text) for symbol, (_, text) in MARKS.items() if symbol in here]
        for kind, what, text in samples:
            long = (34 if kind == "line" else 20) + width(text, 11.5) + 24
            if x + long > self.width - MARGIN:
                x, self.y = MARGIN + 6, self.y + 25
            if kind == "line":
                self.add(f'<line x1="{x}" y1="{self.y:g}" x2="{x + 28}" y2="{self.y:g}" stroke="{colour}" stroke-width="1.7"{what}/>')
            else:
                self.add(mark(what, x + 5, self.y, colour, "legend"))
            self.text(x + (34 if kind == "line" else 20), self.y + 4, text, 11.5, "#52606d")
            x += round(long)
        self.y += 22

    def drawn(self):
        self.title()
        self.heads(self.y)
        top = self.y + HEADER - 12
        self.y += HEADER
        captions, before = list(self.captions), len(self.parts)
        for row in self.story.rows:
            while captions and captions[0][0] <= row.first:
                self.caption(captions.pop(0)[1])
            self.row(row)
        for _, words in captions:
            self.caption(words)
        self.y += 8
        self.parts[before:before] = self.lifelines(top, self.y)
        self.heads(self.y)
        self.y += HEADER
        self.legend()
        head = (f'<svg xmlns="http://www.w3.org/2000/svg" viewBox="0 0 {self.width:.0f} {self.y:.0f}" width="{self.width:.0f}" height="{self.y:.0f}" '
                'font-family="DejaVu Sans, Verdana, Helvetica, Arial, sans-serif">')
        title = escape(self.heading[0] or "a script and its report")
        return "\n".join([head, f"<title>{title}</title>", f'<rect width="{self.width:.0f}" height="{self.y:.0f}" fill="white"/>', *self.parts, "</svg>"]) + "\n"


def drawn(story, captions):
    return Chart(story, captions).drawn()
