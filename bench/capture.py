"""Prints a capture of random frames and messages, good and ill: capture.py SEED LINES. The same seed gives the same
lines."""
import random
import sys

COMMANDS = [0x00, 0x10, 0x1F, 0x20, 0x23, 0x24, 0x30, 0x32, 0x33, 0x34, 0x35, 0x36, 0x37, 0x38, 0x39, 0x50, 0x51, 0x52, 0x60,
            0x68, 0x69, 0x6A, 0x6B, 0xA0, 0xA1, 0xE0, 0xE0, 0xE0, 0xE1, 0xE2, 0xE3, 0xF0, 0xF0, 0xF3, 0xF4, 0xFF]
TYPES = [0x00, 0x08, 0x0B, 0x0F, 0x10, 0x17, 0x18, 0x1F, 0x20, 0x27, 0x28, 0x2F, 0x30, 0x31, 0x32, 0x38, 0x39, 0x3A, 0x41, 0x42,
         0xE0, 0xE2, 0xE3, 0xE8, 0xE9, 0xF0]
CONTROLS = [0x8C, 0x8C, 0x8C, 0x0C, 0x0D, 0x8D, 0xCC, 0x4D, 0x0E, 0x88]
EXTENSIONS = [0x00, 0x01, 0x08, 0x10, 0x18, 0x30, 0x38, 0x40, 0x80, 0xA0]


def octets(chance, count):
    return bytes(chance.randrange(256) for _ in range(count))


def entry(chance):
    """One entry of an attribute report, whose value may have another size than its type says."""
    kind = chance.choice(TYPES)
    value = bytearray(octets(chance, chance.randrange(10)))
    if kind in (0x41, 0x42) and value:
        value[0] = chance.choice([len(value) - 1, 0, 3, 255])
    return octets(chance, 2) + bytes([kind]) + value


def command(chance):
    identifier = chance.choice(COMMANDS)
    if identifier == 0xA0 and chance.random() < 0.8:
        entries = [entry(chance) for _ in range(chance.randrange(4))]
        return bytes([identifier]) + octets(chance, 2) + b"".join(entries)
    count = chance.choice([0, 0, 1, 2, 3, 5, 10, 20, 30, 45, 60, 90])
    likely = [0x00, 0x01, 0x02, 0x04, 0x80, 0x84, 0xFF]
    return bytes([identifier]) + bytes(chance.choice([chance.randrange(256), *likely]) for _ in range(count))


def frame(chance):
    control = chance.choice([*CONTROLS, chance.randrange(256)])
    made = bytearray(b"\x01\x08") + octets(chance, 5) + bytes([control])
    if control >= 0x80:
        made.append(chance.choice([*EXTENSIONS, chance.randrange(256)]))
    if chance.random() < 0.95:
        made += octets(chance, chance.choice([4, 8]))
    made += command(chance)
    if chance.random() < 0.5:
        made += octets(chance, 4)
    if chance.random() < 0.02:
        made += octets(chance, 60)
    if chance.random() < 0.02:
        made[chance.randrange(2)] ^= 1 << chance.randrange(8)
    if chance.random() < 0.05:
        del made[chance.randrange(len(made) + 1):]
    return made


def payload(chance):
    count = chance.choice([0, 0, 1, 2, 10, 40, 90, 0xFF])
    return bytes([count]) + octets(chance, 0 if count == 0xFF else count)


def message(chance):
    command, from_sink, size = chance.choice([(0, 0, 2), (4, 0, 2), (1, 1, 3), (2, 1, 1), (6, 1, 1)])
    options = chance.randrange(1 << 8 * size)
    if chance.random() < 0.9 and command != 2:
        options &= ~7
    bit = [bool(options >> place & 1) for place in range(24)]
    made = bytearray([1 | from_sink << 3 | chance.choice([0, 16]), chance.randrange(256), command])
    made += options.to_bytes(size, "little")
    if command in (0, 4):
        made += octets(chance, 9) + payload(chance) + octets(chance, 3 if bit[14 if command == 0 else 11] else 0)
        made += octets(chance, 4 if command == 4 and bit[9] else 0)
    if command == 1:
        mode = 0 if bit[4] else options >> 5 & 3
        made += octets(chance, 4 + (0, 2, 2, 10)[mode] + bit[3] + 4 * bit[14] + 16 * bit[15] + 2 * bit[16] + bit[17])
    if command == 2:
        made += octets(chance, 2 * bit[1] + bit[4])
    if command == 6:
        made += octets(chance, 8) + payload(chance)
    if chance.random() < 0.1:
        made += octets(chance, chance.choice([1, 2, 60]))
    if chance.random() < 0.1:
        made[chance.choice([0, 2])] ^= 1 << chance.randrange(8)
    if chance.random() < 0.1:
        del made[chance.randrange(1, len(made) + 1):]
    return made


def main():
    chance = random.Random(int(sys.argv[1]))
    for _ in range(int(sys.argv[2])):
        begin, made = ("zcl ", message(chance)) if chance.random() < 0.3 else ("", frame(chance))
        digits = made.hex()
        print(begin + (digits.upper() if chance.random() < 0.5 else digits))


if __name__ == "__main__":
    main()
