"""A second network: it plays scripts as docs/network.md and docs/formats.md say, and is written from these two pages alone. Its
sinks are lists of changes and its cipher is that of .ci/secured; it shares nothing with the program."""
import copy
import re

from second_frames import INDIVIDUAL_KINDS, STANDARD, Frame, Rule, add_rule, derived_group, pressed, reads, round_keys, shown

LAST_COUNTER = 2**32 - 1
LAST_READING = 2**64 - 1 - 100_000_000
MOST_NODES, MOST_ROWS = 64, 1024
MOST_COMMITS, MOST_CALLS = 1_000_000, 65_535
MODES = {"derived": 1, "group": 2, "unicast": 3}


class Bad(Exception):
    """A line that ends the run, by its reason."""


class NeedsBit(Exception):
    """A line that settles whether a change is remembered, and no bit was given. Nothing was changed yet."""


# ---- the words of a line

HEX = r"(?:[0-9A-Fa-f]{2}){1,127}|-"
DECIMAL = r"0|[1-9][0-9]*"
WORDS = {
    "name": r"[a-z][a-z0-9]{0,7}", "addr": r"[0-9A-Fa-f]{4}", "ieee": r"[0-9A-Fa-f]{16}", "src": r"[0-9A-Fa-f]{8}",
    "octet": r"[0-9A-Fa-f]{2}", "key": r"[0-9A-Fa-f]{32}", "link": r"[0-9A-Fa-f]{32}|-", "kind": r"[12347]", "level": r"[23]",
    "mode": r"derived|unicast|group:[0-9A-Fa-f]{4}", "channel": r"1[1-9]|2[0-6]", "any": r"[0-9A-Fa-f]{8}|any", "hex": HEX,
    "number": DECIMAL, "cut": "cut", "way": r"[0-4]",
}
FORMS = {
    "sink": ["name", "addr", "ieee", "mode", "channel", "link", "key"],
    "device": ["name", "src", "key", "kind", "level", "octet", "number"],
    "pair": ["name", "src", "key", "kind", "level", "octet", "number"],
    "press": ["name", "hex"], "inject": ["hex"], "hear": ["number", "name", "octet"], "announce": ["name", "src"], "table": ["name"],
    "cut": ["name", "number", "number", "way"], "fault": ["name", "number", "number"], "on": ["name"], "off": ["name"],
}
TARGETS = {"table": [], "copy": ["addr", "octet"], "fixed": ["addr", "octet", "hex"]}


def fits(kinds, words):
    return len(kinds) == len(words) and all(re.fullmatch(WORDS[kind], word) for kind, word in zip(kinds, words))


def octets_of(word):
    return b"" if word == "-" else bytes.fromhex(word)


def words_of(line):
    """The keyword of a line and the words behind it; nothing for a line that does nothing."""
    if line == "" or line.startswith("#"):
        return None
    words = line.split(" ")
    if len(words) < 2 or not re.fullmatch(DECIMAL, words[0]) or int(words[0]) > LAST_READING:
        raise Bad("Form")
    return words[1], words[2:]


def fits_rule(words):
    return len(words) > 3 and fits(["any", "octet", "octet"], words[:3]) and words[3] in TARGETS and fits(TARGETS[words[3]], words[4:])


def form_of(line):
    """The keyword and the words of a line that has a form; nothing for a line that does nothing."""
    words = words_of(line)
    if words is None:
        return None
    keyword, rest = words
    if keyword == "rule":
        good = fits(["name"], rest[:1]) and fits_rule(rest[1:])
    elif keyword == "on" and len(rest) > 1:
        good = fits(["name", "cut", "number", "way"], rest) and int(rest[2]) <= MOST_CALLS
    else:
        good = keyword in FORMS and fits(FORMS[keyword], rest)
    if not good:
        raise Bad("Form")
    if keyword in ("device", "pair") and int(rest[-1]) > LAST_COUNTER or keyword == "hear" and int(rest[0]) > 2**64 - 1:
        raise Bad("Form")
    if keyword in ("cut", "fault") and not (1 <= int(rest[1]) <= MOST_COMMITS and int(rest[2]) <= MOST_CALLS):
        raise Bad("Form")
    if keyword == "press" and not 1 <= len(octets_of(rest[1])) <= 104:
        raise Bad("Form")
    return keyword, rest


# ---- a sink

class Sink:
    def __init__(self, words):
        address, ieee, mode, _channel, _link, _shared = words
        self.address, self.ieee = int(address, 16), int(ieee, 16)
        self.mode = MODES[mode.split(":")[0]]
        self.group = int(mode.split(":")[1], 16) if ":" in mode else 0
        self.rules = [Rule(None, command, 1, None) for command in STANDARD]
        # the changes, oldest first: ("pair", SrcID, key, kind, level, mode, group, DeviceID, counter), ("accept" or "retire", row, counter)
        self.ledger = []
        # what can be read off the list of changes, kept so that long scripts end: rows, and of each its last Pair, whether it is
        # live and its floor; of each SrcID the row that was paired last
        self.pairs, self.values, self.live, self.floors, self.last = [], [], [], [], {}
        # its power: "runs", "dark" or "halted"; the change that is open while it is halted; and what is armed: nothing, or "cut" or
        # "fault", the commit counted from the next one, and the device calls
        self.phase, self.open, self.armed = "runs", None, None

    def known(self):
        """All of it that a later line can show."""
        return (self.address, self.phase, self.open, self.armed, tuple(self.pairs), tuple(self.values), tuple(self.live), tuple(self.floors),
                tuple(sorted(self.last.items())), len(self.rules))

    def change(self, change):
        self.ledger.append(change)
        if change[0] == "pair":
            pair = change[1], change[2]
            if pair not in self.pairs:
                self.pairs.append(pair)
                self.values.append(None), self.live.append(None), self.floors.append(0)
            row = self.pairs.index(pair)
            self.values[row], self.live[row], self.last[change[1]] = change, True, row
        else:
            row = change[1]
            self.live[row] = self.live[row] and change[0] != "retire"
        self.floors[row] = max(self.floors[row], change[-1])
        return row

    def current(self, source):
        row = self.last.get(source)
        return row if row is not None and self.live[row] else None

    def pairing(self, row):
        _, source, key, kind, level, mode, group, device, _ = self.values[row]
        options = 1 << 3 | mode << 5 | level << 9 | kind << 11 | 1 << 14 | 1 << 15
        place = self.ieee.to_bytes(8, "little") + self.address.to_bytes(2, "little") if mode == 3 else group.to_bytes(2, "little")
        return (options.to_bytes(3, "little") + source.to_bytes(4, "little") + place + bytes([device])
                + self.floors[row].to_bytes(4, "little") + key)


class Device:
    def __init__(self, words):
        source, key, kind, level, _device, counter = words
        self.source, self.keys, self.kind, self.level = int(source, 16), round_keys(bytes.fromhex(key)), int(kind), int(level)
        self.counter, self.sent = int(counter), 0


# ---- the network

class Network:
    def __init__(self):
        self.air, self.messages, self.nodes, self.report, self.schedules, self.bits = [], 0, {}, [], {}, []

    def say(self, number, name, text):
        self.report.append(f"{number} {name} {text}")

    def node(self, name, kind=None):
        node = self.nodes.get(name)
        if node is None or kind is not None and not isinstance(node, kind):
            raise Bad("Absent")
        return node

    def put(self, number, name, message):
        octets = bytes([0x19, self.messages & 255, 0x01]) + message
        self.say(number, name, f"put {self.messages} all {shown(octets)}")
        self.messages += 1

    def send(self, number, name, octets):
        self.say(number, name, f"air {len(self.air)} {shown(octets)}")
        self.air.append(octets)

    def add(self, name, node):
        kin = [other for other in self.nodes.values() if type(other) is type(node)]
        if name in self.nodes or isinstance(node, Sink) and any(other.address == node.address for other in kin):
            raise Bad("Taken")
        if len(kin) >= MOST_NODES:
            raise Bad("Many")
        self.nodes[name] = node

    def keys(self, key):
        if key not in self.schedules:
            self.schedules[key] = round_keys(key)
        return self.schedules[key]

    def bit(self):
        """The next of the bits that were given."""
        if not self.bits:
            raise NeedsBit
        return self.bits.pop(0)

    def befallen(self, number, name, sink, change):
        """Whether a cut or a fault befalls the commit of a change. Then that is said, and nothing else is."""
        if sink.armed is None:
            return False
        what, commit, calls = sink.armed
        if commit > 1:
            sink.armed = what, commit - 1, calls
            return False
        if what == "cut":
            remembered = self.bit() if calls < 16 else True
            sink.armed, sink.phase = None, "dark"
            if remembered:
                sink.change(change)
            self.say(number, name, "cut")
        else:
            sink.armed, sink.phase, sink.open = None, "halted", change
            self.say(number, name, "halted")
        return True

    def unable(self, number, name, sink):
        """Whether a sink is dark or halted, and says so."""
        if sink.phase != "runs":
            self.say(number, name, sink.phase)
        return sink.phase != "runs"

    def heard(self, number, name, sink, octets):
        frame = Frame(octets)
        if frame.fault is not None:
            return self.say(number, name, f"drop Malformed {frame.fault[0]} {frame.fault[1]}")
        if frame.to_device:
            return self.say(number, name, "drop ToDevice")
        if frame.level == 0:
            return self.say(number, name, "refused NotListening" if frame.body[0] == 0xE0 else "drop Unsecured")
        row = sink.current(frame.source)
        if row is None:
            return self.say(number, name, "drop Unknown")
        _, _, key, kind, level, _, _, _, _ = sink.values[row]
        if frame.individual != (kind in INDIVIDUAL_KINDS):
            return self.say(number, name, "drop KeyBit")
        if frame.level != level:
            return self.say(number, name, "drop LevelOther")
        command = frame.opened(self.keys(key))
        if command is None:
            return self.say(number, name, "drop BadTag")
        if frame.counter <= sink.floors[row]:
            return self.say(number, name, f"drop Stale {sink.floors[row]}")
        if self.befallen(number, name, sink, ("retire" if command[0] == 0xE1 else "accept", row, frame.counter)):
            return None
        if command[0] == 0xE1:
            sink.change(("retire", row, frame.counter))
            self.say(number, name, f"unpaired {row} {frame.source:08X} {frame.counter}")
            return self.put(number, name, (1 << 4).to_bytes(3, "little") + frame.source.to_bytes(4, "little"))
        sink.change(("accept", row, frame.counter))
        acts = []
        if reads(command):
            acts = [rule.act(command) for rule in sink.rules if rule.command == command[0] and rule.source in (None, frame.source)]
        self.say(number, name, f"acted {row} {frame.source:08X} {frame.counter} {command[0]:02X} {len(acts)}")
        for act in acts:
            self.say(number, name, act)

    def paired(self, number, name, words):
        sink = self.node(name, Sink)
        if self.unable(number, name, sink):
            return
        source, key, kind, level, device, counter = words
        source, key, counter = int(source, 16), bytes.fromhex(key), int(counter)
        if not 1 <= source <= 0xFFFFFFF8:
            return self.say(number, name, "refused BadSource")
        if counter == LAST_COUNTER:
            return self.say(number, name, "refused CounterEnd")
        if (source, key) not in sink.pairs and len(sink.pairs) >= MOST_ROWS:
            return self.say(number, name, "refused TableFull")
        group = {1: derived_group(source), 2: sink.group, 3: 0}[sink.mode]
        change = "pair", source, key, int(kind), int(level), sink.mode, group, int(device, 16), counter
        if self.befallen(number, name, sink, change):
            return
        row = sink.change(change)
        self.say(number, name, f"paired {row} {source:08X} {sink.floors[row]}")
        self.put(number, name, sink.pairing(row))

    def pressed(self, number, name, command):
        device = self.node(name, Device)
        if device.counter == LAST_COUNTER:
            return self.say(number, name, "end")
        device.counter += 1
        octets = pressed(device.sent & 255, device.source, device.keys, device.kind, device.level, device.counter, command)
        device.sent += 1
        self.send(number, name, octets)

    def ruled(self, number, name, words):
        sink = self.node(name, Sink)
        source, command, endpoint, target = words[:4]
        kept = None if target == "table" else (int(words[4], 16), int(words[5], 16), target)
        payload = octets_of(words[6]) if target == "fixed" else b""
        rule = Rule(None if source == "any" else int(source, 16), int(command, 16), int(endpoint, 16), kept, payload)
        self.say(number, name, "rule " + add_rule(sink.rules, rule))

    def hears(self, number, frame, name):
        node = self.node(name)
        if frame >= len(self.air):
            raise Bad("Missing")
        if isinstance(node, Device):
            return self.say(number, name, "closed")
        if not self.unable(number, name, node):
            self.heard(number, name, node, self.air[frame])

    def tabled(self, number, name):
        sink = self.node(name, Sink)
        if sink.phase == "dark":
            return self.say(number, name, "dark")
        self.say(number, name, f"rows {len(sink.pairs)}")
        for row, (source, _) in enumerate(sink.pairs):
            _, _, _, kind, level, mode, group, device, _ = sink.values[row]
            self.say(number, name, f"row {row} {source:08X} {kind} {level} {mode} {group:04X} {device:02X} {int(sink.live[row])} {sink.floors[row]}")

    def announced(self, number, name, source):
        sink = self.node(name, Sink)
        if self.unable(number, name, sink):
            return
        row = sink.current(source)
        if row is None:
            return self.say(number, name, "drop Unknown")
        self.put(number, name, sink.pairing(row))

    def armed(self, number, name, what):
        self.node(name, Sink).armed = what
        self.say(number, name, "armed")

    def switched_off(self, number, name):
        sink = self.node(name, Sink)
        if sink.phase == "dark":
            return self.say(number, name, "dark")
        if sink.phase == "halted" and self.bit():
            sink.change(sink.open)
        sink.phase, sink.open = "dark", None
        self.say(number, name, "off")

    def switched_on(self, number, name, is_cut):
        sink = self.node(name, Sink)
        if sink.phase != "dark":
            return self.say(number, name, "running")
        if is_cut:
            sink.armed = None
            return self.say(number, name, "cut")
        sink.phase = "runs"
        self.say(number, name, f"up {len(sink.pairs)}")

    def step(self, number, line):
        form = form_of(line)
        if form is None:
            return
        keyword, words = form
        if keyword == "sink":
            self.add(words[0], Sink(words[1:]))
        elif keyword == "device":
            self.add(words[0], Device(words[1:]))
        elif keyword == "pair":
            self.paired(number, words[0], words[1:])
        elif keyword == "press":
            self.pressed(number, words[0], octets_of(words[1]))
        elif keyword == "inject":
            self.send(number, "-", octets_of(words[0]))
        elif keyword == "hear":
            self.hears(number, int(words[0]), words[1])
        elif keyword == "rule":
            self.ruled(number, words[0], words[1:])
        elif keyword == "announce":
            self.announced(number, words[0], int(words[1], 16))
        elif keyword in ("cut", "fault"):
            self.armed(number, words[0], (keyword, int(words[1]), int(words[2])))
        elif keyword == "on":
            self.switched_on(number, words[0], len(words) > 1)
        elif keyword == "off":
            self.switched_off(number, words[0])
        else:
            self.tabled(number, words[0])


def lines_of(script):
    """The lines of a script: a CR before LF goes, and so does an empty last part."""
    *ended, last = script.split("\n")
    return [line[:-1] if line.endswith("\r") else line for line in ended] + ([last] if last else [])


def played(script, bits=()):
    """The report of a script by these bits, and the text of its status: nothing where it was played to its end."""
    network = Network()
    network.bits = list(bits)
    for number, line in enumerate(lines_of(script), 1):
        try:
            network.step(number, line)
        except Bad as bad:
            return network.report, f"gp: bad line {number}: {bad}\n"
    return network.report, ""


# ---- reports that some list of bits explains

def stepped(network, number, line):
    """Every network that a line leaves, by either bit where it takes one, each with what the line reports of it alone."""
    network.report = []
    try:
        network.step(number, line)
        return [network]
    except NeedsBit:
        other = copy.deepcopy(network)
        network.bits, other.bits = [False], [True]
        network.report, other.report = [], []
        network.step(number, line)
        other.step(number, line)
        return [network, other]


def explained(script, report):
    """The first line whose report no list of bits explains, with what it might have been, or nothing; and the text of the status."""
    by_line = {}
    for line in report:
        by_line.setdefault(line.split(" ")[0], []).append(line)
    networks = [Network()]
    for number, line in enumerate(lines_of(script), 1):
        wanted, might, left, reason = by_line.pop(str(number), []), [], {}, None
        for network in networks:
            try:
                after = stepped(network, number, line)
            except Bad as bad:
                reason = str(bad)
                continue
            might += [other.report for other in after]
            for other in after:
                if other.report == wanted:
                    left.setdefault((other.messages, tuple(node.known() for node in other.nodes.values() if isinstance(node, Sink))), other)
        if reason is not None:
            return (None if not by_line and not wanted else (number, [])), f"gp: bad line {number}: {reason}\n"
        if not left:
            return (number, might), ""
        networks = list(left.values())
    return (min(by_line), []) if by_line else None, ""
