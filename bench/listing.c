/* Lists the frames and messages of a capture as `gp decode` does, for captures all of whose lines have a form. It is written
   on its own from docs/formats.md, to be timed beside gp and compared with it. */
#include <stdint.h>
#include <stdio.h>
#include <string.h>

static const char DIGITS[] = "0123456789ABCDEF";
static char out[1 << 16];
static size_t filled;

static void flush(void) {
    fwrite(out, 1, filled, stdout);
    filled = 0;
}

static void text(const char *word) {
    size_t length = strlen(word);
    memcpy(out + filled, word, length);
    filled += length;
}

static void decimal(uint32_t number) { filled += (size_t)sprintf(out + filled, "%u", number); }

static void octets(const uint8_t *from, size_t count) {
    for (size_t i = 0; i < count; i++) {
        out[filled++] = DIGITS[from[i] >> 4];
        out[filled++] = DIGITS[from[i] & 15];
    }
}

/* a number whose least significant octet comes first, with the most significant digit first */
static void number(const uint8_t *from, size_t count) {
    while (count-- > 0) octets(from + count, 1);
}

static void field(const char *name, const uint8_t *from, size_t count) {
    text(name);
    if (from) number(from, count);
    else text("-");
}

static void refusal(const char *reason, size_t place) {
    text("bad ");
    text(reason);
    text(" ");
    decimal((uint32_t)place);
    text("\n");
}

static void read_as(const char *reason, size_t place) {
    text(reason);
    text(":");
    decimal((uint32_t)place);
}

/* how many octets a value of a type has, -1 for a type that isn't listed */
static int value_size(uint8_t type, int first) {
    if (type >= 0x08 && type <= 0x0F) return type - 0x07;
    if (type >= 0x18 && type <= 0x2F) return type % 8 + 1;
    if (type == 0x10 || type == 0x30) return 1;
    if (type == 0x31 || type == 0x38 || type == 0xE8 || type == 0xE9) return 2;
    if (type == 0x39 || (type >= 0xE0 && type <= 0xE2)) return 4;
    if (type == 0x3A || type == 0xF0) return 8;
    if (type == 0x41 || type == 0x42) return 1 + (first < 0 || first == 0xFF ? 0 : first);
    return -1;
}

static void report(const uint8_t *command, size_t length) {
    size_t at = 3;
    if (length < 3) {
        read_as("Short", length);
        return;
    }
    while (at < length) {
        if (at + 3 > length) {
            read_as("Short", length);
            return;
        }
        int size = value_size(command[at + 2], at + 3 < length ? command[at + 3] : -1);
        if (size < 0) {
            read_as("ValueKind", at + 2);
            return;
        }
        at += 3 + (size_t)size;
        if (at > length) {
            read_as("Short", length);
            return;
        }
    }
    text("Report");
}

/* whether a level or a key type is reserved, which is then what the command reads as */
static int reserved(int level, int type, size_t place) {
    if (level == 1) read_as("ReservedLevel", place);
    else if (type == 5 || type == 6) read_as("ReservedKeyKind", place);
    else return 0;
    return 1;
}

static void commissioning(const uint8_t *command, size_t length) {
    size_t at = 3;
    int options = length > 2 ? command[2] : 0;
    if (options & 0x80) {
        if (length > 3) {
            int extended = command[3];
            if (reserved(extended & 3, extended >> 2 & 7, 3)) return;
            at += (extended & 0x20 ? 16 : 0) + ((extended & 0x60) == 0x60 ? 4 : 0) + (extended & 0x80 ? 4 : 0);
        }
        at += 1;
    }
    if (options & 4) {
        int application = at < length ? command[at] : 0;
        at += 1 + (application & 1 ? 2 : 0) + (application & 2 ? 2 : 0);
        if (application & 4) at += 1 + (at < length ? command[at] : 0);
        if (application & 8) at += 1 + (at < length ? 2 * ((command[at] & 15) + (command[at] >> 4)) : 0);
    }
    if (at > length) read_as("Short", length);
    else text("Commissioning");
}

static void reply(const uint8_t *command, size_t length) {
    size_t at = 2;
    if (length > 1) {
        int options = command[1];
        if (reserved(options >> 3 & 3, options >> 5, 1)) return;
        at += (options & 1 ? 2 : 0) + (options & 2 ? 16 : 0) + ((options & 6) == 6 ? 8 : 0);
    }
    if (at > length) read_as("Short", length);
    else text("Reply");
}

static void two(const char *variant, size_t length) {
    if (length < 2) read_as("Short", length);
    else text(variant);
}

/* what the octets of a command read as */
static void variant(const uint8_t *command, size_t length) {
    uint8_t id = command[0];
    if (id == 0x00 || (id >= 0x10 && id <= 0x1F) || (id >= 0x20 && id <= 0x23) || id == 0x34 || id == 0x50 || id == 0x51 ||
        (id >= 0x60 && id <= 0x68) || id == 0xE1 || id == 0xE2)
        text("Plain");
    else if (id == 0x30 || id == 0x31 || id == 0x35 || id == 0x36) text("Move");
    else if (id == 0x32 || id == 0x33 || id == 0x37 || id == 0x38) two("Step", length);
    else if (id == 0x69 || id == 0x6A) two("Vector", length);
    else if (id == 0xA0) report(command, length);
    else if (id == 0xE0) commissioning(command, length);
    else if (id == 0xE3) two("ChannelRequest", length);
    else if (id == 0xF0) reply(command, length);
    else if (id == 0xF3) two("ChannelConfig", length);
    else text("Other");
}

static void frame(const uint8_t *b, size_t length) {
    if (length > 125) return refusal("TooLong", 125);
    if (length < 2) return refusal("Short", length);
    if (b[0] != 0x01 || b[1] != 0x08) return refusal("MacForm", 0);
    if (length < 8) return refusal("Short", length);
    int control = b[7];
    if ((control & 3) > 1) return refusal("FrameKind", 7);
    if ((control >> 2 & 15) != 3) return refusal("Version", 7);
    int maintenance = control & 1, has_ext = control >> 7;
    if (has_ext && length < 9) return refusal("Short", length);
    int ext = has_ext ? b[8] : 0, level = ext >> 3 & 3;
    if (ext & 7) return refusal("AppId", 8);
    if (level == 1) return refusal("LevelOne", 8);
    if (maintenance && level > 1) return refusal("SecuredMaintenance", 8);
    size_t at = 8 + (size_t)has_ext;
    const uint8_t *src = !maintenance || has_ext ? b + at : NULL;
    if (src) at += 4;
    const uint8_t *counter = level > 1 ? b + at : NULL;
    if (counter) at += 4;
    size_t behind = level > 1 ? 4 : 0;
    if (at + behind > length) return refusal("Short", length);
    if (at + behind == length) return refusal("NoCommand", at);
    const uint8_t *mic = level > 1 ? b + length - 4 : NULL;
    size_t size = length - behind - at;
    text(maintenance ? "maintenance" : "data");
    field(" seq=", b + 2, 1);
    field(" pan=", b + 3, 2);
    field(" dest=", b + 5, 2);
    text(control & 0x40 ? " auto=1" : " auto=0");
    field(" ext=", has_ext ? b + 8 : NULL, 1);
    field(" src=", src, 4);
    text(" counter=");
    if (counter)
        decimal((uint32_t)counter[0] | (uint32_t)counter[1] << 8 | (uint32_t)counter[2] << 16 | (uint32_t)counter[3] << 24);
    else text("-");
    text(" body=");
    octets(b + at, size);
    text(" mic=");
    if (mic) octets(mic, 4);
    else text("-");
    text(" read=");
    if (level == 3) text("-");
    else variant(b + at, size);
    text(" tag=-\n");
}

/* the octets of a message, the place that has been read, and whether an octet was missing */
struct reader {
    const uint8_t *octets;
    size_t length, at;
    int is_short;
};

static const uint8_t *take(struct reader *from, int is_there, size_t count) {
    static const uint8_t zeros[16];
    if (!is_there) return NULL;
    if (from->at + count > from->length) {
        from->is_short = 1;
        return zeros;
    }
    from->at += count;
    return from->octets + from->at - count;
}

static void decimal_field(const char *name, const uint8_t *from, size_t count) {
    uint32_t value = 0;
    text(name);
    for (size_t i = 0; from && i < count; i++) value |= (uint32_t)from[i] << (8 * i);
    if (from) decimal(value);
    else text("-");
}

static void octets_field(const char *name, const uint8_t *from, size_t count) {
    text(name);
    if (from) octets(from, count);
    else text("-");
}

static void payload_field(struct reader *from) {
    const uint8_t *length = take(from, 1, 1);
    size_t count = *length == 0xFF ? 0 : *length;
    const uint8_t *payload = take(from, 1, count);
    text(" payload=");
    if (from->is_short) return;
    if (*length == 0xFF) text("none");
    else if (count == 0) text("-");
    else octets(payload, count);
}

static void heard(struct reader *from, uint32_t options, int proxy_bit, int has_mic) {
    field(" src=", take(from, 1, 4), 4);
    decimal_field(" counter=", take(from, 1, 4), 4);
    field(" command=", take(from, 1, 1), 1);
    payload_field(from);
    int has_proxy = options >> proxy_bit & 1;
    field(" proxy=", take(from, has_proxy, 2), 2);
    field(" link=", take(from, has_proxy, 1), 1);
    if (proxy_bit == 11) octets_field(" mic=", take(from, has_mic, 4), 4);
}

static void pairing(struct reader *from, uint32_t options) {
    int stays = !(options >> 4 & 1), mode = options >> 5 & 3;
    field(" src=", take(from, 1, 4), 4);
    field(" sink=", take(from, stays && mode == 3, 8), 8);
    field(" address=", take(from, stays && mode == 3, 2), 2);
    field(" group=", take(from, stays && (mode == 1 || mode == 2), 2), 2);
    field(" device=", take(from, options >> 3 & 1, 1), 1);
    decimal_field(" counter=", take(from, options >> 14 & 1, 4), 4);
    octets_field(" key=", take(from, options >> 15 & 1, 16), 16);
    field(" alias=", take(from, options >> 16 & 1, 2), 2);
    field(" radius=", take(from, options >> 17 & 1, 1), 1);
}

static void message(const uint8_t *b, size_t length) {
    if (length > 127) return refusal("Long", 127);
    if (length < 3) return refusal("Short", length);
    if ((b[0] & 0xE7) != 0x01) return refusal("HeaderForm", 0);
    int from_sink = b[0] >> 3 & 1, command = b[2], kind = -1;
    static const struct {
        int from_sink, command;
        size_t options;
        const char *name;
    } kinds[] = {{0, 0, 2, "notification"}, {0, 4, 2, "commissioning"}, {1, 1, 3, "pairing"}, {1, 2, 1, "mode"}, {1, 6, 1, "response"}};
    for (int i = 0; i < 5; i++)
        if (kinds[i].from_sink == from_sink && kinds[i].command == command) kind = i;
    if (kind < 0) return refusal("CommandUnknown", 2);
    struct reader from = {b, length, 3, 0};
    size_t begun = filled, size = kinds[kind].options;
    const uint8_t *options = take(&from, 1, size);
    if (from.is_short) return refusal("Short", length);
    uint32_t bits = 0;
    for (size_t i = 0; i < size; i++) bits |= (uint32_t)options[i] << (8 * i);
    if (kind != 3 && (bits & 7)) return refusal("AppId", 3);
    if (kind == 2 && !(bits & 0x10) && !(bits & 0x60)) return refusal("Mode", 3);
    text(kinds[kind].name);
    field(" seq=", b + 1, 1);
    text(b[0] & 0x10 ? " quiet=1" : " quiet=0");
    field(" options=", options, size);
    if (kind == 0) heard(&from, bits, 14, 0);
    if (kind == 1) heard(&from, bits, 11, bits >> 9 & 1);
    if (kind == 2) pairing(&from, bits);
    if (kind == 3) {
        decimal_field(" window=", take(&from, bits >> 1 & 1, 2), 2);
        field(" channel=", take(&from, bits >> 4 & 1, 1), 1);
    }
    if (kind == 4) {
        field(" master=", take(&from, 1, 2), 2);
        field(" channel=", take(&from, 1, 1), 1);
        field(" src=", take(&from, 1, 4), 4);
        field(" command=", take(&from, 1, 1), 1);
        payload_field(&from);
    }
    if (from.is_short || from.at < length) {
        filled = begun;
        return from.is_short ? refusal("Short", length) : refusal("Trailing", from.at);
    }
    text("\n");
}

static int digit(int c) {
    if (c >= '0' && c <= '9') return c - '0';
    if (c >= 'A' && c <= 'F') return c - 'A' + 10;
    if (c >= 'a' && c <= 'f') return c - 'a' + 10;
    return -1;
}

int main(void) {
    char line[1100];
    uint8_t octet[550];
    while (fgets(line, sizeof line, stdin)) {
        size_t count = 0;
        int is_message = strncmp(line, "zcl ", 4) == 0;
        for (const char *at = line + (is_message ? 4 : 0); *at != '\n' && *at != '\0'; at += 2) {
            int high = digit(at[0]), low = high < 0 ? -1 : digit(at[1]);
            if (low < 0) {
                flush();
                return 1;
            }
            octet[count++] = (uint8_t)(high * 16 + low);
        }
        if (is_message) message(octet, count);
        else frame(octet, count);
        if (filled > sizeof out / 2) flush();
    }
    flush();
    return 0;
}
