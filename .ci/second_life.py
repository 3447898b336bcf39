"""The life of one sink on the second network (.ci/second_network.py): it plays the lines of `gp sink` as docs/network.md says, over an
image of a disk that it reads as docs/formats.md, section 6, says. It is written from these two pages alone."""
import second_network as second

SIZE, FIRST_SLOT, SLOT, MOST_SLOTS = 204_800, 4096, 64, 2048
OPEN, HEADER = 0xA5, b"GPSINK\x01"
LAST_GENERATION = 2**64 - 1
FORMS = {
    "config": ["addr", "ieee", "mode", "channel", "link", "key"], "hear": ["hex"], "pair": ["src", "key", "kind", "level", "octet", "number"],
    "announce": ["src"], "table": [],
}


# ---- the disk

class Refused(Exception):
    """A disk whose store is refused, by its reason."""


class Worn(Exception):
    """A change that is due when the disk takes no more."""


class Slot:
    def __init__(self, octets):
        def number(first, last):
            return int.from_bytes(octets[first:last + 1], "little")

        self.is_open, self.generation, self.source, self.key = octets[0] == OPEN, number(1, 8), number(9, 12), octets[13:29]
        self.kind, self.level, self.mode, self.group, self.device = octets[29], octets[30], octets[31], number(32, 33), octets[34]
        self.live, self.order, self.floor, self.zeros = octets[35], number(36, 43), number(44, 47), octets[48:64]
        self.pair = self.source, self.key

    def is_ill_alone(self):
        return (not 1 <= self.order <= self.generation or not 1 <= self.source <= 0xFFFFFFF8 or self.kind not in (1, 2, 3, 4, 7)
                or self.level not in (2, 3) or self.mode not in (1, 2, 3) or self.live > 1 or any(self.zeros))

    def row(self):
        """What a sink shows of the row: its values, whether it is live, its floor."""
        return self.source, self.key, self.kind, self.level, self.mode, self.group, self.device, bool(self.live), self.floor


def slots_of(octets):
    """The slots of a formatted image; what stands behind the end of the file is zeros."""
    octets = octets[:SIZE] + bytes(SIZE - len(octets[:SIZE]))
    if octets[0] != OPEN or octets[1:8] != HEADER:
        raise Refused("NotFormatted")
    return [Slot(octets[at:at + SLOT]) for at in range(FIRST_SLOT, FIRST_SLOT + MOST_SLOTS * SLOT, SLOT)]


def rows_of(octets):
    """The slot in which each row stands, in row order, and the last generation."""
    slots = slots_of(octets)
    rows, pairs, orders = [], set(), set()
    for row in range(MOST_SLOTS // 2):
        even, odd = both = slots[2 * row:2 * row + 2]
        for which, slot in enumerate(both):
            if slot.is_open and (
                    slot.is_ill_alone() or row > len(rows) or slot.pair in pairs or (slot.source, slot.order) in orders
                    or which == 1 and even.is_open and (even.pair != odd.pair or even.generation == odd.generation)):
                raise Refused(f"SlotForm {2 * row + which}")
        opened = [slot for slot in both if slot.is_open]
        if opened:
            rows.append(max(opened, key=lambda slot: slot.generation))
            pairs.add(rows[-1].pair)
            orders |= {(slot.source, slot.order) for slot in opened}
    return rows, max((slot.generation for slot in slots if slot.is_open), default=0)


def shown_rows(slots):
    """The rows, and of each SrcID the row that was paired last."""
    last = {}
    for row, slot in enumerate(slots):
        if slot.source not in last or slots[last[slot.source]].order < slot.order:
            last[slot.source] = row
    return [slot.row() for slot in slots], last


# ---- the lines of a life

def form_of(line):
    """The keyword and the words of a line that has a form; nothing for a line that does nothing."""
    words = second.words_of(line)
    if words is None:
        return None
    keyword, rest = words
    good = second.fits_rule(rest) if keyword == "rule" else keyword in FORMS and second.fits(FORMS[keyword], rest)
    if not good or keyword == "pair" and int(rest[-1]) > second.LAST_COUNTER:
        raise second.Bad("Form")
    return keyword, rest


class Life(second.Network):
    """A network of one sink, whose changes go to a disk of which the last generation is known."""

    def __init__(self, image):
        super().__init__()
        self.image, self.asked, self.sink, self.generation = image, False, None, None

    def befallen(self, number, name, sink, change):
        """No change is cut; but one that is due when the last generation is the greatest number isn't made."""
        if self.generation == LAST_GENERATION:
            raise Worn
        self.generation += 1
        return False

    def set_up(self, words):
        self.asked = True
        slots, self.generation = rows_of(self.image)
        sink = self.nodes["sink"] = second.Sink(words)
        for slot in slots:
            sink.pairs.append(slot.pair)
            sink.values.append(("pair", *slot.row()[:7], slot.floor))
            sink.live.append(bool(slot.live))
            sink.floors.append(slot.floor)
        sink.last = shown_rows(slots)[1]
        self.sink = sink

    def rows(self):
        sink = self.sink
        return [(*values[1:8], live, floor) for values, live, floor in zip(sink.values, sink.live, sink.floors)], sink.last

    def step(self, number, line):
        form = form_of(line)
        if form is None:
            return
        keyword, words = form
        if (keyword == "config") != (self.sink is None):
            raise second.Bad("Form")
        if keyword == "config":
            self.set_up(words)
        elif keyword == "hear":
            self.heard(number, "sink", self.sink, second.octets_of(words[0]))
        elif keyword == "pair":
            self.paired(number, "sink", words)
        elif keyword == "rule":
            self.ruled(number, "sink", words)
        elif keyword == "announce":
            self.announced(number, "sink", int(words[0], 16))
        else:
            self.tabled(number, "sink")


def lived(text, image):
    """The life as it was at its end, its status and the text of the status."""
    life = Life(image)
    for number, line in enumerate(second.lines_of(text), 1):
        try:
            life.step(number, line)
        except second.Bad as bad:
            return life, 1, f"gp: bad line {number}: {bad}\n"
        except Refused as refused:
            return life, 7, f"gp: disk refused: {refused}\n"
        except Worn:
            return life, 8, f"gp: worn at {LAST_GENERATION}\n"
    return life, 0, ""
