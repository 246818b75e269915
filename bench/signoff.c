/* The sign-off program in C, for the same job as `signoff PROFILE SHEET CAPTURE`, written from README.md and document 01's table
   of rows: it goes over the capture once, jumps over data, looks a row up once an answer, and keeps one byte for each row and
   zone. It declares what it calls, so that no header of the machine is needed. */
extern int open(const char *path, int flags, ...);
extern int close(int file);
extern long read(int file, void *to, unsigned long count);
extern long write(int file, const void *from, unsigned long count);

typedef unsigned char u8;

enum { LIMIT = 60000, LONG = 65536, LINES = 24, RECORD = 6, LINE = 64 };

enum { SIGNED = 1, OFF = 2, SHEET = 4 };

struct row {
    u8 flags, zones;
    /* the values of answers, which are those of settings too in the rows of a sheet: two ranges, a range from 1 to 0 is empty */
    u8 values[4];
};

static const struct row rows[] = {
    {0, 0, {1, 0, 1, 0}}, /* no row */
    {0, 1, {0, 1, 1, 0}},
    {0, 1, {0, 8, 1, 0}},
    {0, 1, {0, 5, 1, 0}},
    {0, 3, {0, 2, 1, 0}},
    {SHEET, 3, {0, 2, 1, 0}},
    {SHEET | OFF, 3, {0, 0x0A, 0xFF, 0xFF}},
    {SHEET | SIGNED, 3, {0, 0x0F, 0x80, 0x8F}},
    {0, 3, {0, 8, 1, 0}},
    {SHEET | SIGNED, 3, {0, 0, 0x80, 0xA8}},
    {SHEET | SIGNED, 3, {0, 0x0A, 0x80, 0x8A}},
    {SHEET, 2, {0, 0x63, 1, 0}},
    {SHEET, 2, {0, 1, 1, 0}},
    {0, 1, {1, 0, 1, 0}}, /* pairs, which are not kept */
    {0, 2, {0, 6, 0xA0, 0xA0}},
    {SIGNED, 2, {0, 0x0C, 0x80, 0x8C}},
    {0, 2, {0, 0x0A, 1, 0}},
    {0, 2, {0, 1, 1, 0}},
    {SHEET, 2, {0, 0, 2, 9}},
    {SHEET, 2, {0, 0x63, 1, 0}},
};

enum { ROWS = sizeof rows / sizeof rows[0], CELLS = ROWS * 3 };

/* the row of each command code */
static const u8 rows_a[256] = {[0x0F] = 1, [0x10] = 2, [0x11] = 3, [0x37] = 4, [0x38] = 5,
                               [0x39] = 6, [0x3A] = 7, [0x44] = 8, [0x45] = 9, [0x46] = 10};
static const u8 rows_s[256] = {[0x0D] = 11, [0x0E] = 12, [0x0F] = 13, [0x37] = 14, [0x3B] = 15,
                               [0x44] = 16, [0x5A] = 17, [0x5B] = 18, [0x5C] = 19};

static u8 sheet[LONG], capture[LONG];
static u8 known[CELLS], values[CELLS], wanted[CELLS];
static char gathered[LINE * (LINES + 1)];

static void say(int file, const char *from, const char *end) {
    while (from < end) {
        long put = write(file, from, (unsigned long)(end - from));
        if (put <= 0)
            break;
        from += put;
    }
}

#define PUT(text) (__builtin_memcpy(out, text, sizeof text - 1), out += sizeof text - 1)

static char *put_number(char *out, unsigned n) {
    char digits[5];
    int count = 0;
    do
        digits[count++] = (char)('0' + n % 10);
    while (n /= 10);
    while (count)
        *out++ = digits[--count];
    return out;
}

static char *put_value(char *out, unsigned flags, u8 value) {
    if (flags & OFF && value == 0xFF)
        return PUT("off");
    if (flags & SIGNED && value > 0x80) {
        *out++ = '-';
        value -= 0x80;
    }
    return put_number(out, value);
}

static inline int has(const struct row *row, u8 value) {
    const u8 *v = row->values;
    return (value >= v[0] && value <= v[1]) || (value >= v[2] && value <= v[3]);
}

static inline int is_minus_zero(const struct row *row, u8 value) {
    return value == 0x80 && row->flags & SIGNED;
}

static char *refused(char *out, unsigned number) {
    PUT("refused ");
    return put_number(out, number);
}

static char *refused_at(char *out, unsigned number, unsigned place) {
    out = refused(out, number);
    PUT(" at ");
    return put_number(out, place);
}

/* where the sheet is refused, the words that say so; else nothing */
static char *put_fault(char *out, char letter, const u8 *row_of, unsigned length) {
    unsigned count = length / RECORD;
    if (length % RECORD)
        return refused_at(out, 10, count);
    for (unsigned i = 0; i < count; i++) {
        const u8 *at = sheet + i * RECORD;
        if (at[0] != 'S' || at[1] != 'L' || at[2] != (u8)letter)
            return refused_at(out, 10, i);
    }
    if (count > LINES)
        return refused_at(out, 6, LINES);
    for (unsigned i = 0; i < count; i++) {
        const u8 *at = sheet + i * RECORD;
        u8 zone = at[3], value = at[5];
        unsigned place = row_of[at[4]];
        const struct row *row = &rows[place];
        if (zone - 1u >= row->zones || !(row->flags & SHEET) || is_minus_zero(row, value) || !has(row, value))
            return refused_at(out, 7, i);
        unsigned cell = place * 3 + zone - 1;
        if (wanted[cell])
            return refused_at(out, 8, i);
        wanted[cell] = 1;
    }
    return out;
}

/* keeps what each accepted answer of one byte says: no other has a cell */
static void feed(const u8 *row_of, unsigned count) {
    for (unsigned at = 0; at < count;) {
        const u8 *frame = capture + at;
        if (frame[0] != 0x21) {
            at++;
            continue;
        }
        unsigned left = count - at;
        unsigned whole = left < 5 ? 5 : 5u + frame[4]; /* bytes before the end byte */
        if (left <= whole)
            return;
        u8 end = frame[whole];
        at += whole + (end != 0x21);
        if (end != 0x0D || frame[3] != 0 || whole != 6)
            continue;
        u8 zone = frame[1], value = frame[5];
        unsigned place = row_of[frame[2]];
        const struct row *row = &rows[place];
        if (zone - 1u >= row->zones || !has(row, value))
            continue;
        unsigned cell = place * 3 + zone - 1;
        known[cell] = 1;
        values[cell] = is_minus_zero(row, value) ? 0 : value;
    }
}

static char *put_line(char *out, const u8 *row_of, const u8 *line) {
    static const char digits[] = "0123456789ABCDEF";
    u8 zone = line[3], code = line[4], value = line[5];
    unsigned place = row_of[code], cell = place * 3 + zone - 1;
    if (known[cell] && values[cell] == value)
        return out;
    out = put_number(out, zone);
    *out++ = ' ';
    *out++ = digits[code >> 4];
    *out++ = digits[code & 15];
    *out++ = ' ';
    out = put_value(out, rows[place].flags, value);
    if (known[cell]) {
        *out++ = ' ';
        out = put_value(out, rows[place].flags, values[cell]);
    } else
        PUT(" unknown");
    *out++ = '\n';
    return out;
}

static char *put_signed(char *out, const u8 *row_of, unsigned length) {
    char *lines = out + sizeof "not signed\n" - 1, *end = lines;
    for (unsigned at = 0; at < length; at += RECORD)
        end = put_line(end, row_of, sheet + at);
    if (end == lines)
        return PUT("signed\n");
    PUT("not signed\n");
    return end;
}

/* the sheet's refusal, or what the capture makes of it */
static char *put_answer(char *out, char letter, unsigned length, unsigned count) {
    char *start = out;
    if (letter != 'A' && letter != 'S')
        out = refused(out, 12);
    else if (count > LIMIT)
        out = refused(out, 11);
    else {
        const u8 *row_of = letter == 'A' ? rows_a : rows_s;
        out = put_fault(out, letter, row_of, length);
        if (out == start) {
            feed(row_of, count);
            return put_signed(out, row_of, length);
        }
    }
    *out++ = '\n';
    return out;
}

static void complain(const char *words, const char *path) {
    const char *parts[] = {words, path, "\n"};
    for (int i = 0; i < 3; i++) {
        const char *end = parts[i];
        while (*end)
            end++;
        say(2, parts[i], end);
    }
}

/* a file's bytes, as many as there is room for; below 0 where it can't be read */
static long read_all(const char *path, u8 *to) {
    int file = open(path, 0);
    if (file < 0) {
        complain("signoff: can't open ", path);
        return -1;
    }
    long length = 0, got;
    do {
        got = read(file, to + length, (unsigned long)(LONG - length));
        length += got;
    } while (got > 0 && length < LONG);
    close(file);
    if (got < 0) {
        complain("signoff: can't read ", path);
        return -1;
    }
    return length;
}

int main(int count, char **args) {
    if (count != 4) {
        complain("usage: signoff PROFILE SHEET CAPTURE (the letter A or S, and the paths of a sheet file and of a capture of answers)", "");
        return 0;
    }
    long length = read_all(args[2], sheet);
    if (length == LONG)
        complain("signoff: the sheet file has more than 65,535 bytes", "");
    if (length < 0 || length == LONG)
        return 0;
    long bytes = read_all(args[3], capture);
    if (bytes < 0)
        return 0;
    char letter = args[1][0] && !args[1][1] ? args[1][0] : 0;
    say(1, gathered, put_answer(gathered, letter, (unsigned)length, (unsigned)bytes));
    return 0;
}
