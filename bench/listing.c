/* The listing program again, by hand, to be timed beside the proved one: a state machine that takes byte by byte,
   and output that is gathered. It declares what it calls, so that no header of the machine is needed. */
extern long read(int file, void *to, unsigned long count);
extern long write(int file, const void *from, unsigned long count);

typedef unsigned char u8;

enum { LIMIT = 60000, GATHERED = 65536 };

/* what a row's commands can say beside its values */
enum { REQUEST = 1, STEPS = 2, SWITCH = 4, TOGGLE = 8, OFF = 16, SIGNED = 32, ZONE1 = 64, PAIR = 128 };

struct row {
    char profile;
    u8 code;
    u8 flags;
    /* the values of settings and of answers: two ranges and one more each, a range from 1 to 0 is empty */
    u8 set[5], answer[5];
};

#define NONE {1, 0, 1, 0, 0}
static const struct row rows[] = {
    {'A', 0x0F, REQUEST | ZONE1, NONE, {0, 1, 1, 0, 0}},
    {'A', 0x10, REQUEST | ZONE1, NONE, {0, 8, 1, 0, 0}},
    {'A', 0x11, REQUEST | ZONE1, NONE, {0, 5, 1, 0, 0}},
    {'A', 0x37, REQUEST | SWITCH, NONE, {0, 2, 1, 0, 0}},
    {'A', 0x38, REQUEST, {0, 2, 1, 0, 0}, {0, 2, 1, 0, 0}},
    {'A', 0x39, REQUEST | STEPS | OFF, {0, 0x0A, 1, 0, 0xFF}, {0, 0x0A, 1, 0, 0xFF}},
    {'A', 0x3A, REQUEST | STEPS | SIGNED, {0, 0x0F, 0x80, 0x8F, 0}, {0, 0x0F, 0x80, 0x8F, 0}},
    {'A', 0x44, REQUEST, NONE, {0, 8, 1, 0, 0}},
    {'A', 0x45, REQUEST | STEPS | SIGNED, {0, 0, 0x80, 0xA8, 0}, {0, 0, 0x80, 0xA8, 0}},
    {'A', 0x46, REQUEST | STEPS | SIGNED, {0, 0x0A, 0x80, 0x8A, 0}, {0, 0x0A, 0x80, 0x8A, 0}},
    {'S', 0x0D, REQUEST | STEPS, {0, 0x63, 1, 0, 0}, {0, 0x63, 1, 0, 0}},
    {'S', 0x0E, REQUEST | TOGGLE, {0, 1, 1, 0, 0}, {0, 1, 1, 0, 0}},
    {'S', 0x0F, REQUEST | ZONE1 | PAIR, NONE, NONE},
    {'S', 0x37, REQUEST, {0, 6, 1, 0, 0}, {0, 6, 1, 0, 0xA0}},
    {'S', 0x3B, REQUEST | SIGNED, NONE, {0, 0x0C, 0x80, 0x8C, 0}},
    {'S', 0x44, REQUEST, NONE, {0, 0x0A, 1, 0, 0}},
    {'S', 0x5A, REQUEST, NONE, {0, 1, 1, 0, 0}},
    {'S', 0x5B, REQUEST, {0, 0, 2, 9, 0}, {0, 0, 2, 9, 0}},
    {'S', 0x5C, REQUEST, {0, 0x63, 1, 0, 0}, {0, 0x63, 1, 0, 0}},
};

static const struct row *row_of[256];
static u8 input[LIMIT + 3];
static char gathered[GATHERED + 128];
static unsigned gathered_count;

static void flush(void) {
    unsigned done = 0;
    while (done < gathered_count) {
        long put = write(1, gathered + done, gathered_count - done);
        if (put <= 0)
            break;
        done += (unsigned)put;
    }
    gathered_count = 0;
}

static void put(const char *text) {
    while (*text)
        gathered[gathered_count++] = *text++;
}

static void put_number(unsigned n) {
    char digits[10];
    int count = 0;
    do {
        digits[count++] = (char)('0' + n % 10);
        n /= 10;
    } while (n);
    while (count)
        gathered[gathered_count++] = digits[--count];
}

static void put_hex(u8 byte) {
    static const char digits[] = "0123456789ABCDEF";
    gathered[gathered_count++] = digits[byte >> 4];
    gathered[gathered_count++] = digits[byte & 15];
}

static void put_place(unsigned at, unsigned length) {
    if (gathered_count >= GATHERED)
        flush();
    put_number(at);
    put(" ");
    put_number(length);
}

static void put_unread(unsigned number) {
    put(" unread - - - ");
    put_number(number);
    put("\n");
}

static int has(const u8 *values, u8 value) {
    return (value >= values[0] && value <= values[1]) || (value >= values[2] && value <= values[3]) ||
           (values[4] && value == values[4]);
}

/* what one byte says in a command: a word, or nothing */
static const char *word_of(const struct row *row, u8 value) {
    if (value == 0xF0 && row->flags & REQUEST)
        return "request";
    if (value == 0xF1 && row->flags & STEPS)
        return "up";
    if (value == 0xF2 && row->flags & STEPS)
        return "down";
    if (value == 0xF1 && row->flags & SWITCH)
        return "on";
    if (value == 0xF2 && row->flags & SWITCH)
        return "off";
    if (value == 2 && row->flags & TOGGLE)
        return "toggle";
    return 0;
}

/* the number that a code means in a signed row */
static int signed_number(u8 code) {
    return code < 0x80 ? code : 0x80 - code;
}

static void put_integer(int n) {
    if (n < 0) {
        put("-");
        n = -n;
    }
    put_number((unsigned)n);
}

static void put_value(const struct row *row, u8 value) {
    if (row->flags & OFF && value == 0xFF)
        put("off");
    else
        put_integer(row->flags & SIGNED ? signed_number(value) : value);
}

static int is_input(u8 input) {
    return input == 1 || input == 2 || input == 3 || input == 5 || input == 6;
}

/* the number of a value that the row lacks: 13 for a command's step or request, else 4 */
static unsigned lacking(int answers, u8 value) {
    return !answers && value >= 0xF0 && value <= 0xF2 ? 13 : 4;
}

static void put_frame(const u8 *frame, int answers, unsigned zones) {
    unsigned header = answers ? 5 : 4, count = frame[header - 1];
    u8 zone = frame[1], code = frame[2], ac = answers ? frame[3] : 0;
    const u8 *body = frame + header;
    if (answers && ac != 0) {
        if (ac < 0x82 || ac > 0x86) {
            put_unread(5);
            return;
        }
        put(" denied ");
        put_number(zone);
        put(" ");
        put_hex(code);
        put(" ");
        put_hex(ac);
        put(" -\n");
        return;
    }
    if (zone < 1 || zone > zones) {
        put_unread(1);
        return;
    }
    const struct row *row = row_of[code];
    if (!row) {
        put_unread(2);
        return;
    }
    if (row->flags & ZONE1 && zone != 1) {
        put_unread(1);
        return;
    }
    int pair = row->flags & PAIR;
    if (!(count == 1 && !(pair && answers)) && !(count == 2 && pair)) {
        put_unread(3);
        return;
    }
    const char *word = 0;
    if (count == 2) {
        if (!is_input(body[0]) || body[1] > 1) {
            put_unread(4);
            return;
        }
    } else {
        word = answers ? 0 : word_of(row, body[0]);
        if (!word && !has(answers ? row->answer : row->set, body[0])) {
            put_unread(lacking(answers, body[0]));
            return;
        }
    }
    put(" frame ");
    put_number(zone);
    put(" ");
    put_hex(code);
    put(answers ? " 00 " : " - ");
    if (count == 2) {
        put_number(body[0]);
        put(body[1] ? ":1" : ":0");
    } else if (word) {
        put(word);
    } else {
        put_value(row, body[0]);
    }
    put("\n");
}

static void refused(unsigned number) {
    put("refused ");
    put_number(number);
    put("\n");
    flush();
}

int main(void) {
    unsigned length = 0;
    while (length < sizeof input) {
        long got = read(0, input + length, sizeof input - length);
        if (got <= 0)
            break;
        length += (unsigned)got;
    }
    if (length < 2 || (input[0] != 'A' && input[0] != 'S') || (input[1] != 'C' && input[1] != 'R')) {
        refused(12);
        return 0;
    }
    if (length > LIMIT + 2) {
        refused(11);
        return 0;
    }
    for (unsigned i = 0; i < sizeof rows / sizeof *rows; i++)
        if (rows[i].profile == (char)input[0])
            row_of[rows[i].code] = &rows[i];
    const u8 *capture = input + 2;
    unsigned count = length - 2, zones = input[0] == 'A' ? 3 : 2;
    int answers = input[1] == 'R';
    unsigned header = answers ? 5 : 4;
    unsigned frame = 0, broken = 0, noise = 0, taken = 0, start = 0, end = 0;
    put("at length event zone code answer value\n");
    for (unsigned i = 0; i < count; i++) {
        u8 byte = capture[i];
        if (taken == 0) {
            if (byte == 0x21) {
                start = i;
                taken = 1;
                end = header;
            } else {
                put_place(i, 1);
                put(" noise - - - -\n");
                noise++;
            }
        } else if (taken < end) {
            if (taken == header - 1)
                end = header + byte;
            taken++;
        } else if (byte == 0x0D) {
            put_place(start, taken + 1);
            put_frame(capture + start, answers, zones);
            frame += taken + 1;
            taken = 0;
        } else {
            unsigned part = byte == 0x21 ? taken : taken + 1;
            put_place(start, part);
            put(" broken - - - -\n");
            broken += part;
            taken = 0;
            if (byte == 0x21) {
                start = i;
                taken = 1;
                end = header;
            }
        }
    }
    if (taken) {
        put_place(start, taken);
        put(" pending - - - -\n");
    }
    put("total ");
    put_number(count);
    put(" frame ");
    put_number(frame);
    put(" broken ");
    put_number(broken);
    put(" noise ");
    put_number(noise);
    put(" pending ");
    put_number(taken);
    put("\n");
    flush();
    return 0;
}
