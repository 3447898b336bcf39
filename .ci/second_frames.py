"""The octets of the second network (.ci/second_network.py): frames, commands and the acts of rules, as docs/formats.md says, sections
1, 2, 4 and 8. The cipher is that of .ci/secured."""
import importlib.machinery
import importlib.util
import os

_loader = importlib.machinery.SourceFileLoader("secured", os.path.join(os.path.dirname(os.path.abspath(__file__)), "secured"))
_spec = importlib.util.spec_from_loader("secured", _loader)
_secured = importlib.util.module_from_spec(_spec)
_loader.exec_module(_secured)
round_keys, sealed = _secured.round_keys, _secured.sealed

MOST_RULES = 64
INDIVIDUAL_KINDS = (4, 7)


def shown(octets):
    return octets.hex().upper() or "-"


# ---- frames (docs/formats.md, sections 1 and 4)

class Frame:
    """What stands in the octets of a frame, or the fault of octets that are none."""

    def __init__(self, octets):
        self.fault = self._fault(octets)
        if self.fault is not None:
            return
        control, has_extension = octets[7], octets[7] >> 7
        self.extension = octets[8] if has_extension else 0
        self.level, self.to_device = self.extension >> 3 & 3, self.extension >> 7
        self.individual = self.extension >> 5 & 1
        at = 8 + has_extension
        self.source = None
        if control & 3 == 0 or has_extension:
            self.source, at = int.from_bytes(octets[at:at + 4], "little"), at + 4
        self.counter, self.mic, end = None, None, len(octets)
        if self.level >= 2:
            self.counter, at = int.from_bytes(octets[at:at + 4], "little"), at + 4
            end -= 4
            self.mic = octets[end:]
        self.header, self.body = octets[7:at], octets[at:end]

    @staticmethod
    def _fault(octets):
        length = len(octets)
        if length > 125:
            return "TooLong", 125
        if length < 2:
            return "Short", length
        if octets[:2] != b"\x01\x08":
            return "MacForm", 0
        if length < 8:
            return "Short", length
        control = octets[7]
        if control & 3 > 1:
            return "FrameKind", 7
        if control >> 2 & 15 != 3:
            return "Version", 7
        extended = control >> 7
        level = 0
        if extended:
            if length < 9:
                return "Short", length
            level = octets[8] >> 3 & 3
            if octets[8] & 7:
                return "AppId", 8
            if level == 1:
                return "LevelOne", 8
            if control & 1 and level:
                return "SecuredMaintenance", 8
        begin = 8 + extended + (4 if control & 1 == 0 or extended else 0) + (4 if level else 0)
        if length < begin + (4 if level else 0):
            return "Short", length
        if length == begin + (4 if level else 0):
            return "NoCommand", begin
        return None

    def opened(self, keys):
        """The command in clear where the MIC verifies under the key, else nothing."""
        source, counter = self.source.to_bytes(4, "little"), self.counter.to_bytes(4, "little")
        nonce = (bytes(4) if self.to_device else source) + source + counter + b"\x05"
        if self.level == 2:
            return self.body if sealed(keys, nonce, self.header + self.body, b"")[1] == self.mic else None
        command = sealed(keys, nonce, b"", self.body)[0]
        return command if sealed(keys, nonce, self.header, command)[1] == self.mic else None


def pressed(sequence, source, keys, kind, level, counter, command):
    header = bytes([0x8C, level << 3 | (kind in INDIVIDUAL_KINDS) << 5]) + source.to_bytes(4, "little") + counter.to_bytes(4, "little")
    nonce = source.to_bytes(4, "little") * 2 + counter.to_bytes(4, "little") + b"\x05"
    if level == 2:
        body, mic = command, sealed(keys, nonce, header + command, b"")[1]
    else:
        body, mic = sealed(keys, nonce, header, command)
    return b"\x01\x08" + bytes([sequence]) + b"\xFF\xFF\xFF\xFF" + header + body + mic


def derived_group(source):
    low, high = source & 0xFFFF, source >> 16
    for group in (low, low ^ high):
        if 1 <= group <= 0xFFF7:
            return group
    return 7 if low == 0 else low - 8


# ---- commands (section 2) and the acts of a rule (section 8)

def value_size(kind, octets):
    """The octets of a ZCL value of this type, its length octet among them; nothing for another type, a size past the end where
    octets are missing."""
    for first, sizes in ((0x08, 8), (0x18, 8), (0x20, 8), (0x28, 8)):
        if first <= kind < first + sizes:
            return kind - first + 1
    if kind in (0x41, 0x42):
        if not octets:
            return 1
        return 1 if octets[0] == 0xFF else 1 + octets[0]
    return {0x10: 1, 0x30: 1, 0x31: 2, 0x38: 2, 0x39: 4, 0x3A: 8, 0xE0: 4, 0xE1: 4, 0xE2: 4, 0xE8: 2, 0xE9: 2, 0xF0: 8}.get(kind)


def report_reads(octets):
    """Whether a report's octets behind the identifier can be read."""
    if len(octets) < 2:
        return False
    at = 2
    while at < len(octets):
        if len(octets) < at + 3:
            return False
        size = value_size(octets[at + 2], octets[at + 3:])
        if size is None or len(octets) < at + 3 + size:
            return False
        at += 3 + size
    return True


STANDARD = [0x00, *range(0x10, 0x20), 0x20, 0x21, 0x22, *range(0x30, 0x39), 0x50, 0x51, 0xA0]


def table_act(command):
    """Cluster, general or not, ZCL command and payload of a command of the standard table, or nothing where it can't be read."""
    first, rest = command[0], command[1:]
    if first == 0x00:
        return 0x0003, 0, 0x00, b"\x3C\x00"
    if 0x10 <= first < 0x20:
        return 0x0005, 0, 0x05 if first < 0x18 else 0x04, bytes([0, 0, first & 7])
    if 0x20 <= first <= 0x22:
        return 0x0006, 0, first - 0x20, b""
    if first in (0x30, 0x31, 0x35, 0x36):
        down = first in (0x31, 0x36)
        return 0x0008, 0, 0x01 if first < 0x35 else 0x05, bytes([down]) + (rest[:1] or b"\xFF")
    if first in (0x32, 0x33, 0x37, 0x38):
        if not rest:
            return None
        down = first in (0x33, 0x38)
        return 0x0008, 0, 0x02 if first < 0x35 else 0x06, bytes([down]) + rest[:1] + (rest[1:3] if len(rest) >= 3 else b"\xFF\xFF")
    if first == 0x34:
        return 0x0008, 0, 0x03, b""
    if first in (0x50, 0x51):
        return 0x0101, 0, first - 0x50, b""
    if not report_reads(rest):
        return None
    return int.from_bytes(rest[:2], "little"), 1, 0x0A, rest[2:]


def commissioning_reads(octets):
    at = 2
    if len(octets) < 2:
        return False
    options, extended, application = octets[1], 0, 0
    if options >> 7:
        if len(octets) < 3:
            return False
        extended, at = octets[2], 3
        if extended & 3 == 1 or extended >> 2 & 7 in (5, 6):
            return False
        at += (extended >> 5 & 1) * 16 + (4 if extended & 0x60 == 0x60 else 0) + (extended >> 7) * 4
    if options >> 2 & 1:
        if len(octets) <= at:
            return False
        application, at = octets[at], at + 1
        at += 2 * (application & 1) + 2 * (application >> 1 & 1)
        if application >> 2 & 1:
            if len(octets) <= at:
                return False
            at += 1 + octets[at]
        if application >> 3 & 1:
            if len(octets) <= at:
                return False
            at += 1 + 2 * ((octets[at] & 15) + (octets[at] >> 4))
    return len(octets) >= at


def reply_reads(octets):
    if not octets or octets[0] >> 3 & 3 == 1 or octets[0] >> 5 in (5, 6):
        return False
    options = octets[0]
    return len(octets) >= 1 + 2 * (options & 1) + 16 * (options >> 1 & 1) + (8 if options & 6 == 6 else 0)


def reads(command):
    """Whether a command can be read (section 2)."""
    first, rest = command[0], command[1:]
    if first in (0x32, 0x33, 0x37, 0x38, 0x69, 0x6A, 0xE3, 0xF3):
        return len(rest) >= 1
    if first == 0xA0:
        return report_reads(rest)
    if first == 0xE0:
        return commissioning_reads(rest)
    return reply_reads(rest) if first == 0xF0 else True


class Rule:
    def __init__(self, source, command, endpoint, target, payload=b""):
        self.source, self.command, self.endpoint, self.target, self.payload = source, command, endpoint, target, payload

    def act(self, command):
        if self.target is None:
            cluster, general, zcl, payload = table_act(command)
        else:
            (cluster, zcl), general, payload = self.target[:2], 0, command[1:] if self.target[2] == "copy" else self.payload
        return f"zcl {self.endpoint:02X} {cluster:04X} {general} {zcl:02X} {shown(payload)}"


def add_rule(rules, rule):
    if rule.command >= 0xE0 or rule.target is None and rule.command not in STANDARD or len(rule.payload) > 32:
        return "form"
    if len(rules) >= MOST_RULES:
        return "full"
    same = [other for other in rules + [rule] if other.command == rule.command]
    general = [other for other in same if other.source is None]
    sources = {other.source for other in same} - {None}
    most = max([len(general)] + [len(general) + sum(other.source == source for other in same) for source in sources])
    if most >= 5:
        return "many"
    rules.append(rule)
    return "added"
