/* The listing program once more, as fast as C makes it without tricks of the machine: it jumps over data, puts each text by
   a copy of known length, takes digits two and two from a table, without a division, and keeps the end of its output in a
   register. bench/listing.c is the plain one. It declares what it calls, so that no header of the machine is needed. */
extern long read(int file, void *to, unsigned long count);
extern long write(int file, const void *from, unsigned long count);

typedef unsigned char u8;

enum { LIMIT = 60000, GATHERED = 65536, LINE = 64 };

/* what a row's commands can say beside its values */
enum { REQUEST = 1, STEPS = 2, SWITCH = 4, TOGGLE = 8, OFF = 16, SIGNED = 32, ZONE1 = 64, PAIR = 128 };

struct row {
    u8 flags;
    /* the values of settings and of answers: two ranges each, a range from 1 to 0 is empty */
    u8 set[4], answer[4];
};

#define NONE {1, 0, 1, 0}
static const struct row rows[] = {
    {0, NONE, NONE}, /* no row */
    {REQUEST | ZONE1, NONE, {0, 1, 1, 0}},
    {REQUEST | ZONE1, NONE, {0, 8, 1, 0}},
    {REQUEST | ZONE1, NONE, {0, 5, 1, 0}},
    {REQUEST | SWITCH, NONE, {0, 2, 1, 0}},
    {REQUEST, {0, 2, 1, 0}, {0, 2, 1, 0}},
    {REQUEST | STEPS | OFF, {0, 0x0A, 0xFF, 0xFF}, {0, 0x0A, 0xFF, 0xFF}},
    {REQUEST | STEPS | SIGNED, {0, 0x0F, 0x80, 0x8F}, {0, 0x0F, 0x80, 0x8F}},
    {REQUEST, NONE, {0, 8, 1, 0}},
    {REQUEST | STEPS | SIGNED, {0, 0, 0x80, 0xA8}, {0, 0, 0x80, 0xA8}},
    {REQUEST | STEPS | SIGNED, {0, 0x0A, 0x80, 0x8A}, {0, 0x0A, 0x80, 0x8A}},
    {REQUEST | STEPS, {0, 0x63, 1, 0}, {0, 0x63, 1, 0}},
    {REQUEST | TOGGLE, {0, 1, 1, 0}, {0, 1, 1, 0}},
    {REQUEST | ZONE1 | PAIR, NONE, NONE},
    {REQUEST, {0, 6, 1, 0}, {0, 6, 0xA0, 0xA0}},
    {REQUEST | SIGNED, NONE, {0, 0x0C, 0x80, 0x8C}},
    {REQUEST, NONE, {0, 0x0A, 1, 0}},
    {REQUEST, NONE, {0, 1, 1, 0}},
    {REQUEST, {0, 0, 2, 9}, {0, 0, 2, 9}},
    {REQUEST, {0, 0x63, 1, 0}, {0, 0x63, 1, 0}},
};

/* the row of each command code */
static const u8 rows_a[256] = {[0x0F] = 1, [0x10] = 2, [0x11] = 3, [0x37] = 4, [0x38] = 5,
                               [0x39] = 6, [0x3A] = 7, [0x44] = 8, [0x45] = 9, [0x46] = 10};
static const u8 rows_s[256] = {[0x0D] = 11, [0x0E] = 12, [0x0F] = 13, [0x37] = 14, [0x3B] = 15,
                               [0x44] = 16, [0x5A] = 17, [0x5B] = 18, [0x5C] = 19};

static u8 input[LIMIT + 3];
static char gathered[GATHERED + LINE];

static char *flushed(char *out) {
    const char *from = gathered;
    while (from < out) {
        long put = write(1, from, (unsigned long)(out - from));
        if (put <= 0)
            break;
        from += put;
    }
    return gathered;
}

#define PUT(text) (__builtin_memcpy(out, text, sizeof text - 1), out += sizeof text - 1)

/* the digits of the numbers below 100, two and two */
static const char pairs[] =
    "0001020304050607080910111213141516171819"
    "2021222324252627282930313233343536373839"
    "4041424344454647484950515253545556575859"
    "6061626364656667686970717273747576777879"
    "8081828384858687888990919293949596979899";
#define PAIR(to, n) __builtin_memcpy(to, pairs + 2 * (n), 2)

/* at most three digits */
static inline char *put_small(char *out, unsigned n) {
    if (n < 10) {
        out[0] = (char)('0' + n);
        return out + 1;
    }
    if (n < 100) {
        PAIR(out, n);
        return out + 2;
    }
    out[0] = (char)('0' + n / 100);
    PAIR(out + 1, n % 100);
    return out + 3;
}

/* at most five: the number in parts of a hundred or of ten thousand, 2 ^ 32 of them and rounded up; what is over, times a hundred,
   shows the next two */
static inline char *put_number(char *out, unsigned n) {
    if (n < 1000)
        return put_small(out, n);
    if (n < 10000) {
        unsigned long first = n * 42949673ul;
        PAIR(out, first >> 32);
        PAIR(out + 2, (first & 0xFFFFFFFF) * 100 >> 32);
        return out + 4;
    }
    unsigned long first = n * 429497ul, second = (first & 0xFFFFFFFF) * 100;
    out[0] = (char)('0' + (first >> 32));
    PAIR(out + 1, second >> 32);
    PAIR(out + 3, (second & 0xFFFFFFFF) * 100 >> 32);
    return out + 5;
}

static inline char *put_hex(char *out, u8 byte) {
    static const char digits[] = "0123456789ABCDEF";
    out[0] = digits[byte >> 4];
    out[1] = digits[byte & 15];
    return out + 2;
}

static char *put_unread(char *out, unsigned number) {
    PUT(" unread - - - ");
    out = put_small(out, number);
    PUT("\n");
    return out;
}

static inline int has(const u8 *values, u8 value) {
    return (value >= values[0] && value <= values[1]) || (value >= values[2] && value <= values[3]);
}

/* what one byte says in a command by a word, with the line's end, or nothing */
static inline char *put_word(char *out, unsigned flags, u8 value) {
    if (value == 0xF0 && flags & REQUEST)
        return PUT("request\n");
    if (value == 0xF1 && flags & STEPS)
        return PUT("up\n");
    if (value == 0xF2 && flags & STEPS)
        return PUT("down\n");
    if (value == 0xF1 && flags & SWITCH)
        return PUT("on\n");
    if (value == 0xF2 && flags & SWITCH)
        return PUT("off\n");
    if (value == 2 && flags & TOGGLE)
        return PUT("toggle\n");
    return 0;
}

static inline char *put_value(char *out, unsigned flags, u8 value) {
    if (flags & OFF && value == 0xFF)
        return PUT("off\n");
    unsigned size = value;
    if (flags & SIGNED && value >= 0x80) {
        size = value - 0x80u;
        if (size)
            *out++ = '-';
    }
    out = put_small(out, size);
    PUT("\n");
    return out;
}

static inline char *put_named(char *out, u8 zone, u8 code) {
    out = put_small(out, zone);
    *out++ = ' ';
    return put_hex(out, code);
}

static inline int is_input(u8 input) {
    return input == 1 || input == 2 || input == 3 || input == 5 || input == 6;
}

static inline char *put_frame(char *out, const u8 *frame, int answers, unsigned zones, const u8 *row_of) {
    unsigned header = answers ? 5 : 4, count = frame[header - 1];
    u8 zone = frame[1], code = frame[2], ac = answers ? frame[3] : 0;
    const u8 *body = frame + header;
    if (ac != 0) {
        if (ac < 0x82 || ac > 0x86)
            return put_unread(out, 5);
        PUT(" denied ");
        out = put_named(out, zone, code);
        *out++ = ' ';
        out = put_hex(out, ac);
        PUT(" -\n");
        return out;
    }
    if (zone - 1u >= zones)
        return put_unread(out, 1);
    unsigned place = row_of[code];
    if (!place)
        return put_unread(out, 2);
    const struct row *row = &rows[place];
    unsigned flags = row->flags;
    if (flags & ZONE1 && zone != 1)
        return put_unread(out, 1);
    if (flags & PAIR ? count != 2 && (answers || count != 1) : count != 1)
        return put_unread(out, 3);
    char *start = out;
    PUT(" frame ");
    out = put_named(out, zone, code);
    if (count == 2) {
        if (!is_input(body[0]) || body[1] > 1)
            return put_unread(start, 4);
        if (answers)
            PUT(" 00 ");
        else
            PUT(" - ");
        out = put_small(out, body[0]);
        *out++ = ':';
        *out++ = (char)('0' + body[1]);
        PUT("\n");
        return out;
    }
    u8 value = body[0];
    if (answers) {
        PUT(" 00 ");
        return has(row->answer, value) ? put_value(out, flags, value) : put_unread(start, 4);
    }
    PUT(" - ");
    char *said = put_word(out, flags, value);
    if (said)
        return said;
    if (has(row->set, value))
        return put_value(out, flags, value);
    return put_unread(start, value >= 0xF0 && value <= 0xF2 ? 13 : 4);
}

static void refused(unsigned number) {
    char *out = gathered;
    PUT("refused ");
    out = put_number(out, number);
    PUT("\n");
    flushed(out);
}

int main(void) {
    unsigned length = 0;
    while (length < sizeof input) {
        long got = read(0, input + length, sizeof input - length);
        if (got <= 0)
            break;
        length += (unsigned)got;
    }
    if (length < 2 || (input[0] != 'A' && input[0] != 'S') || (input[1] != 'C' && input[1] != 'R')) {
        refused(12);
        return 0;
    }
    if (length > LIMIT + 2) {
        refused(11);
        return 0;
    }
    const u8 *row_of = input[0] == 'A' ? rows_a : rows_s;
    const u8 *capture = input + 2;
    unsigned count = length - 2, zones = input[0] == 'A' ? 3 : 2;
    int answers = input[1] == 'R';
    unsigned header = answers ? 5 : 4;
    unsigned frame = 0, broken = 0, noise = 0, pending = 0;
    char *out = gathered;
    PUT("at length event zone code answer value\n");
    for (unsigned at = 0; at < count;) {
        if (out >= gathered + GATHERED)
            out = flushed(out);
        out = put_number(out, at);
        *out++ = ' ';
        if (capture[at] != 0x21) {
            PUT("1 noise - - - -\n");
            noise++;
            at++;
            continue;
        }
        unsigned left = count - at;
        unsigned whole = left < header ? header : header + capture[at + header - 1]; /* bytes before the end byte */
        if (left <= whole) {
            out = put_small(out, left);
            PUT(" pending - - - -\n");
            pending = left;
            break;
        }
        u8 end = capture[at + whole];
        if (end == 0x0D) {
            out = put_small(out, whole + 1);
            out = put_frame(out, capture + at, answers, zones, row_of);
            frame += whole + 1;
            at += whole + 1;
            continue;
        }
        unsigned part = end == 0x21 ? whole : whole + 1;
        out = put_small(out, part);
        PUT(" broken - - - -\n");
        broken += part;
        at += part;
    }
    PUT("total ");
    out = put_number(out, count);
    PUT(" frame ");
    out = put_number(out, frame);
    PUT(" broken ");
    out = put_number(out, broken);
    PUT(" noise ");
    out = put_number(out, noise);
    PUT(" pending ");
    out = put_number(out, pending);
    PUT("\n");
    flushed(out);
    return 0;
}
