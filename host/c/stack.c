/* How much stack each call takes, as it is seen. A call runs on a stack of its own that was painted before: what is paint no longer was used. Each runs
   twice, with two paints, so that no byte is missed for having the paint's value. A line is: what ran | bytes in base | bytes in strict.
   After a write that ran a command, the stack is searched for those of the command's words that have bits of no field: only a copy brings them there.
   With ITS_TRACE defined its_trace is tried too. (tools/stack.sh runs this, on the machine at hand and on a bare Arm machine.) */
#include "its.h"

uint64_t on_stack(void *top, void (*call)(void), const uint64_t *words);
typedef void (*call)(void);

enum { CTLR = 0x00, IIDR = 0x04, TYPER = 0x08, CBASER = 0x80, CWRITER = 0x88, CREADR = 0x90, BASER = 0x100, PIDR2 = 0xffe8, FRAME = 0x10000 };
enum { PAGE = 4096, QUEUE = 0x40000, BUDGET = 64, PROCESSOR = 3 };
#define VALID ((uint64_t)1 << 63)
enum { PAINTED = 2 * 1024 }; /* of the stack, for a call of a host */
#ifdef ITS_TRACE
enum { SIZE = 192 * 1024 };
#else
enum { SIZE = PAINTED };
#endif
#if defined(__x86_64__)
enum { ARGUMENTS = 32 }; /* what on_stack puts on the stack itself */
#else
enum { ARGUMENTS = 16 };
#endif

static its_unit unit, kept;
static its_told told;
static uint64_t row[1024];
static uint8_t queue[PAGE];
static uint64_t writer;
static uint8_t stack[SIZE] __attribute__((aligned(16)));
static int wrong;
static void (*say)(const char *line);

static char line[160];
static size_t length;

static void text(const char *words) {
    while (*words && length < sizeof line - 1) {
        line[length++] = *words++;
    }
}

static void number(uint64_t n) {
    char digit[2] = {(char)('0' + n % 10), 0};
    if (n >= 10) {
        number(n / 10);
    }
    text(digit);
}

static void end(void) {
    line[length] = 0;
    say(line);
    length = 0;
}

static void check(const char *what, int right) {
    if (!right) {
        text("wrong: ");
        text(what);
        text(", ");
        number(told.numbers[0]);
        end();
        wrong++;
    }
}

static int same(const uint8_t *a, const uint8_t *b, size_t n) {
    while (n && *a == *b) {
        a++, b++, n--;
    }
    return n == 0;
}

/* The command that is searched for, and how often one of its words is found there whole: the first, the third or the last, each of which has bits of no
   field, so that nothing but a copy needs it. (Of a MAPTI every bit of the second is a field's.) */
static const uint8_t *searched;
static size_t copies;

/* Defined where the read of a command keeps its words on the stack: then a copy that is seen is no fault. */
#ifdef ITS_READ_COPIES
#define READ_COPIES 1
#else
#define READ_COPIES 0
#endif

static void search(const uint8_t *from, const uint8_t *to) {
    for (; searched && from + 8 <= to; from++) {
        copies += same(from, searched, 8) || same(from, searched + 16, 8) || same(from, searched + 24, 8);
    }
}

/* Not in a register through a call, which might save it as it is. */
static volatile uint8_t paint;
static size_t painted = PAINTED;

/* The bytes of stack that a call takes, beyond its arguments. The unit is then as the call leaves it. */
static uint64_t used(call body, const uint64_t *words) {
    uint8_t *const top = stack + SIZE - ARGUMENTS, *const bottom = stack + SIZE - painted, *lowest = top;
    kept = unit;
    copies = 0;
    for (int turn = 0; turn < 2; turn++) {
        paint = turn ? 0x5a : 0xc3;
        unit = kept;
        for (size_t i = 0; i < painted; i++) {
            bottom[i] = paint;
        }
        on_stack(stack + SIZE, body, words);
        uint8_t *reached = bottom;
        while (reached < top && *reached == paint) {
            reached++;
        }
        search(reached, top);
        lowest = reached < lowest ? reached : lowest;
    }
    check("the stack was too small to tell", lowest > bottom + painted / 4);
    return (uint64_t)(top - lowest);
}

static uint64_t of(const void *pointer) { return (uint64_t)(uintptr_t)pointer; }

static uint64_t used_by_write(size_t window, size_t room, uint64_t offset, uint8_t width, uint64_t value) {
    const uint64_t words[10] = {of(&unit), QUEUE, of(queue), window, of(row), room, offset, width, value, of(&told)};
    return used((call)its_write, words);
}

static uint64_t used_by_configure(uint32_t profile, uint32_t budget) {
    const uint32_t settings[ITS_SETTINGS] = {[ITS_LPI_LIMIT] = 65535, [ITS_COMMAND_BUDGET] = budget, [ITS_FRAME_SIZE] = 65536, [ITS_PROFILE] = profile};
    static const uint16_t processors[16] = {0, PROCESSOR, 5, 6, 7, 8, 9, 10, 11, 12, 13, 14, 15, 16, 17, 18};
    const uint64_t words[10] = {of(&unit), of(settings), ITS_SETTINGS, of(processors), 16, of(&told)};
    return used((call)its_configure, words);
}

static uint64_t used_by_read(uint64_t offset, uint8_t width) {
    const uint64_t words[10] = {of(&unit), offset, width, of(&told)};
    return used((call)its_read, words);
}

static uint64_t used_by_translate(uint32_t device, uint32_t event) {
    const uint64_t words[10] = {of(&unit), device, event, of(&told)};
    return used((call)its_translate, words);
}

/* The bits that no command's field has are not 0, so that no half of a command is like anything else. */
#define W0(opcode, device) ((opcode) | 0xa1b2c300u | (uint64_t)(device) << 32)
#define W1(event) ((event) | (uint64_t)0x5d4c3b2a << 32)
#define LPI(event, lpi) ((event) | (uint64_t)(lpi) << 32)
#define BITS(bits) (((bits) - 1) | 0x5152535455565720u)
#define COLLECTION(number) ((number) | 0x0f1e2d3c4b5a0000u)
#define TARGET(number, processor) ((number) | (uint64_t)(processor) << 16 | (uint64_t)0x0f1e2d3c << 32)
#define TABLE 0x0006a1b2c3d4e500u
#define W3 0x7f6e5d4c3b2a1908u

struct command {
    const char *what;
    uint64_t words[3];
    uint8_t refusal[2]; /* in base, and in strict */
    uint8_t alone; /* it needs nothing before it */
    uint8_t full; /* the tables are full */
};

static const struct command before[] = {
    {"MAPD", {W0(0x08, 1), BITS(14), VALID | TABLE}, {0, 0}, 0, 0},
    {"MAPC", {W0(0x09, 0), W1(9), VALID | TARGET(0, 0)}, {0, 0}, 0, 0},
    {"MAPC", {W0(0x09, 0), W1(9), VALID | TARGET(1, PROCESSOR)}, {0, 0}, 0, 0},
    {"MAPTI", {W0(0x0a, 1), LPI(0, 8192), COLLECTION(0)}, {0, 0}, 0, 0},
    {"MAPTI", {W0(0x0a, 1), LPI(1, 8193), COLLECTION(1)}, {0, 0}, 0, 0},
    {"MAPTI", {W0(0x0a, 1), LPI(8200, 8200), COLLECTION(1)}, {0, 0}, 0, 0},
};
enum { BEFORE = sizeof before / sizeof *before };

/* Every kind of command, as it is carried out, and with each refusal that it can get but 6, which comes before it is known (below). */
static const struct command kinds[] = {
    {"MAPD", {W0(0x08, 2), BITS(3), VALID | TABLE}, {0, 0}, 1, 0},
    {"MAPD of a mapped device", {W0(0x08, 1), BITS(3), VALID | TABLE}, {0, 0}, 0, 0},
    {"MAPD with V 0", {W0(0x08, 1), BITS(3), TABLE}, {0, 0}, 0, 0},
    {"MAPD with V 0 of a device that is not mapped", {W0(0x08, 9), BITS(3), TABLE}, {0, 0}, 1, 0},
    {"MAPD, device above 65535", {W0(0x08, 65536), BITS(3), VALID | TABLE}, {0, 27}, 1, 0},
    {"MAPD with V 0, device above 65535", {W0(0x08, 65536), BITS(3), TABLE}, {0, 27}, 1, 0},
    {"MAPD, table full", {W0(0x08, 99), BITS(3), VALID | TABLE}, {9, 9}, 0, 1},
    {"MAPC", {W0(0x09, 0), W1(9), VALID | TARGET(2, PROCESSOR)}, {0, 0}, 1, 0},
    {"MAPC of a mapped collection", {W0(0x09, 0), W1(9), VALID | TARGET(1, 0)}, {0, 0}, 0, 0},
    {"MAPC with V 0", {W0(0x09, 0), W1(9), TARGET(1, 0)}, {0, 0}, 0, 0},
    {"MAPC with V 0 of a collection that is not mapped", {W0(0x09, 0), W1(9), TARGET(9, 0)}, {0, 0}, 1, 0},
    {"MAPC, processor not listed", {W0(0x09, 0), W1(9), VALID | TARGET(1, 999)}, {26, 26}, 1, 0},
    {"MAPC, table full", {W0(0x09, 0), W1(9), VALID | TARGET(99, PROCESSOR)}, {9, 9}, 0, 1},
    {"MAPTI", {W0(0x0a, 1), LPI(2, 8300), COLLECTION(1)}, {0, 0}, 0, 0},
    {"MAPTI of a mapped pair", {W0(0x0a, 1), LPI(1, 8300), COLLECTION(0)}, {0, 0}, 0, 0},
    {"MAPTI, LPI out of range", {W0(0x0a, 1), LPI(2, 8191), COLLECTION(1)}, {21, 21}, 1, 0},
    {"MAPTI, device not mapped", {W0(0x0a, 9), LPI(2, 8300), COLLECTION(1)}, {22, 22}, 1, 0},
    {"MAPTI, event beyond the bits", {W0(0x0a, 1), LPI(16384, 8300), COLLECTION(1)}, {23, 23}, 0, 0},
    {"MAPTI, collection not mapped", {W0(0x0a, 1), LPI(2, 8300), COLLECTION(9)}, {24, 24}, 0, 0},
    {"MAPTI, device above 65535", {W0(0x0a, 65536), LPI(2, 8300), COLLECTION(1)}, {22, 27}, 1, 0},
    {"MAPTI, table full", {W0(0x0a, 1), LPI(999, 8300), COLLECTION(1)}, {9, 9}, 0, 1},
    {"MAPI", {W0(0x0b, 1), W1(8300), COLLECTION(1)}, {0, 0}, 0, 0},
    {"MAPI of a mapped pair", {W0(0x0b, 1), W1(8200), COLLECTION(0)}, {0, 0}, 0, 0},
    {"MAPI, LPI out of range", {W0(0x0b, 1), W1(5), COLLECTION(1)}, {21, 21}, 1, 0},
    {"MAPI, device not mapped", {W0(0x0b, 9), W1(8300), COLLECTION(1)}, {22, 22}, 1, 0},
    {"MAPI, event beyond the bits", {W0(0x0b, 1), W1(16384), COLLECTION(1)}, {23, 23}, 0, 0},
    {"MAPI, collection not mapped", {W0(0x0b, 1), W1(8300), COLLECTION(9)}, {24, 24}, 0, 0},
    {"MAPI, device above 65535", {W0(0x0b, 65536), W1(8300), COLLECTION(1)}, {22, 27}, 1, 0},
    {"MAPI, table full", {W0(0x0b, 1), W1(8300), COLLECTION(1)}, {9, 9}, 0, 1},
    {"MOVI", {W0(0x01, 1), W1(1), COLLECTION(0)}, {0, 0}, 0, 0},
    {"MOVI, collection not mapped", {W0(0x01, 1), W1(1), COLLECTION(9)}, {24, 24}, 1, 0},
    {"MOVI, pair not mapped", {W0(0x01, 1), W1(9), COLLECTION(0)}, {25, 25}, 0, 0},
    {"MOVI, device above 65535", {W0(0x01, 65536), W1(1), COLLECTION(0)}, {25, 27}, 0, 0},
    {"INT", {W0(0x03, 1), W1(1), TABLE}, {0, 0}, 0, 0},
    {"INT, pair not mapped", {W0(0x03, 1), W1(9), TABLE}, {8, 8}, 1, 0},
    {"INT, device above 65535", {W0(0x03, 65536), W1(1), TABLE}, {8, 27}, 1, 0},
    {"CLEAR", {W0(0x04, 1), W1(1), TABLE}, {0, 0}, 0, 0},
    {"CLEAR, pair not mapped", {W0(0x04, 1), W1(9), TABLE}, {8, 8}, 1, 0},
    {"CLEAR, device above 65535", {W0(0x04, 65536), W1(1), TABLE}, {8, 27}, 1, 0},
    {"INV", {W0(0x0c, 1), W1(1), TABLE}, {0, 0}, 0, 0},
    {"INV, pair not mapped", {W0(0x0c, 1), W1(9), TABLE}, {25, 25}, 1, 0},
    {"INV, device above 65535", {W0(0x0c, 65536), W1(1), TABLE}, {25, 27}, 1, 0},
    {"INVALL", {W0(0x0d, 0), W1(9), COLLECTION(1)}, {0, 0}, 0, 0},
    {"INVALL, collection not mapped", {W0(0x0d, 0), W1(9), COLLECTION(9)}, {24, 24}, 1, 0},
    {"DISCARD", {W0(0x0f, 1), W1(1), TABLE}, {0, 0}, 0, 0},
    {"DISCARD, pair not mapped", {W0(0x0f, 1), W1(9), TABLE}, {25, 25}, 1, 0},
    {"DISCARD, device above 65535", {W0(0x0f, 65536), W1(1), TABLE}, {25, 27}, 1, 0},
    {"SYNC", {W0(0x05, 0), W1(9), TABLE}, {0, 0}, 1, 0},
    {"a command that the unit lacks", {W0(0x0e, 0), W1(9), TABLE}, {20, 20}, 1, 0},
};
enum { KINDS = sizeof kinds / sizeof *kinds };

/* The command goes to the place of the writer, which passes it. */
static const uint8_t *put(const uint64_t *words) {
    uint8_t *place = queue + writer;
    for (int i = 0; i < 32; i++) {
        place[i] = (uint8_t)((i < 24 ? words[i / 8] : W3) >> 8 * (i % 8));
    }
    writer = (writer + 32) % PAGE;
    return place;
}

static uint64_t write(uint64_t offset, uint8_t width, uint64_t value) {
    return its_write(&unit, QUEUE, queue, PAGE, row, 1024, offset, width, value, &told);
}

static void give(const uint64_t *words) {
    put(words);
    check("a command before", write(CWRITER, 8, writer) == 0);
}

/* An enabled unit, in which the commands before were carried out; every table is full, or none. */
static void ready(uint32_t profile, int full) {
    searched = 0;
    used_by_configure(profile, BUDGET);
    writer = 0;
    check("a queue", told.numbers[0] == 0 && write(CBASER, 8, VALID | QUEUE) == 0 && write(CTLR, 4, 1) == 0);
    for (int i = 0; i < BEFORE; i++) {
        give(before[i].words);
    }
    for (uint64_t n = 2; full && n < 255; n++) {
        const uint64_t device[3] = {W0(0x08, n), BITS(1), VALID}, collection[3] = {W0(0x09, 0), 0, VALID | n};
        const uint64_t pair[3] = {W0(0x0a, 1), LPI(n, 8192 + n), 0};
        if (n <= 32) {
            give(device);
        }
        if (n < 32) {
            give(collection);
        }
        give(pair);
    }
}

static void tell(const char *call, const char *what, uint64_t base, uint64_t strict) {
    text(call);
    text(", ");
    text(what);
    text(" | ");
    number(base);
    text(" | ");
    number(strict);
    end();
}

/* One command, run by a write of CWRITER. */
static uint64_t command(uint32_t profile, const struct command *kind) {
    ready(profile, kind->full);
    searched = put(kind->words);
    const uint64_t bytes = used_by_write(PAGE, 1024, CWRITER, 8, writer);
    check(kind->what, told.numbers[0] == kind->refusal[profile]);
    check("a copy of the command stands on the stack", copies == 0 || READ_COPIES);
    return bytes;
}

/* One write that runs every command of the list that is carried out, in its order, but those that end what a later one needs. */
static uint64_t many(uint32_t profile) {
    uint64_t count = 0;
    ready(profile, 0);
    for (int i = 0; i < KINDS; i++) {
        const uint64_t *words = kinds[i].words;
        const int ends = words[0] == W0(0x08, 1) || (words[0] == W0(0x09, 0) && !(words[2] & VALID));
        if (!kinds[i].refusal[ITS_BASE] && !kinds[i].refusal[ITS_STRICT] && !ends) {
            searched = put(words);
            count++;
        }
    }
    const uint64_t bytes = used_by_write(PAGE, 1024, CWRITER, 8, writer);
    check("many commands", told.numbers[0] == 0 && told.numbers[3] == count);
    check("a copy of the command stands on the stack", copies == 0 || READ_COPIES);
    return bytes;
}

/* What a write meets: an enabled unit or a disabled one; one with a SYNC that waits; one that a command stopped; no unit. */
enum state { ON, OFF, WAITING, STOPPED, UNCONFIGURED, LAYOUT };

/* A write of a register, other than a CWRITER by which a new command is carried out. */
struct other {
    const char *what;
    uint64_t offset, value;
    uint8_t width;
    uint8_t refusal[2]; /* in base, and in strict */
    uint8_t state; /* enum state */
    uint8_t from_writer; /* the value is added to where the writer stands */
};

static const struct other others[] = {
    {"not configured", CTLR, 1, 4, {1, 1}, UNCONFIGURED, 0},
    {"another layout", CTLR, 1, 4, {1, 1}, LAYOUT, 0},
    {"row too short", CTLR, 1, 4, {10, 10}, ON, 0},
    {"no such width", CWRITER, 0, 3, {2, 2}, ON, 0},
    {"not aligned", CWRITER + 2, 0, 4, {2, 2}, ON, 0},
    {"beyond the frame", FRAME, 0, 4, {2, 2}, ON, 0},
    {"CTLR at 8 bytes", CTLR, 0, 8, {2, 2}, ON, 0},
    {"identification register", PIDR2, 0, 4, {3, 3}, ON, 0},
    {"no register", 0x40, 0, 1, {0, 0}, ON, 0},
    {"IIDR", IIDR, 0, 4, {0, 0}, ON, 0},
    {"TYPER", TYPER, 0, 8, {0, 0}, ON, 0},
    {"CREADR", CREADR, 0, 8, {0, 0}, ON, 0},
    {"CBASER", CBASER, VALID | QUEUE, 8, {0, 0}, OFF, 0},
    {"CBASER, low half", CBASER, QUEUE, 4, {0, 0}, OFF, 0},
    {"CBASER, high half", CBASER + 4, 0x80000000, 4, {0, 0}, OFF, 0},
    {"CBASER with base 0", CBASER, VALID | 1, 8, {4, 4}, OFF, 0},
    {"CBASER while enabled", CBASER, VALID | QUEUE, 8, {0, 0}, ON, 0},
    {"CBASER of a unit that a command stopped", CBASER, VALID | QUEUE, 8, {0, 0}, STOPPED, 0},
    {"BASER", BASER + 8, VALID | QUEUE, 8, {0, 0}, OFF, 0},
    {"BASER, a half", BASER + 60, 0x80000000, 4, {0, 0}, OFF, 0},
    {"BASER while enabled", BASER, VALID | QUEUE, 8, {0, 0}, ON, 0},
    {"CTLR off", CTLR, 0, 4, {0, 0}, ON, 0},
    {"CTLR on, nothing waits", CTLR, 1, 4, {0, 0}, OFF, 0},
    {"CTLR on, a command waits", CTLR, 1, 4, {0, 0}, WAITING, 0},
    {"CTLR on, of a unit that a command stopped", CTLR, 1, 4, {20, 0}, STOPPED, 0},
    {"CWRITER, nothing new", CWRITER, 0, 8, {0, 0}, ON, 1},
    {"CWRITER, low half", CWRITER, 0, 4, {0, 0}, ON, 1},
    {"CWRITER, high half", CWRITER + 4, 0, 4, {0, 0}, ON, 0},
    {"CWRITER while disabled", CWRITER, 32, 8, {0, 0}, OFF, 1},
    {"CWRITER that is refused", CWRITER, PAGE, 8, {7, 7}, ON, 0},
    {"CWRITER with Retry", CWRITER, ITS_RETRY, 8, {7, 0}, ON, 1},
    {"CWRITER of a unit that a command stopped", CWRITER, 0, 8, {20, 0}, STOPPED, 1},
    {"CWRITER of a unit that a command stopped, with Retry", CWRITER, ITS_RETRY, 8, {7, 20}, STOPPED, 1},
    {"more than the budget", CWRITER, 32 * (BUDGET + 1), 8, {5, 5}, ON, 1},
    {"a command that is not in the window", CWRITER, 32, 8, {6, 6}, ON, 1},
};
enum { OTHERS = sizeof others / sizeof *others };

static uint64_t other(uint32_t profile, const struct other *which) {
    static const uint64_t lacks[3] = {W0(0x0e, 0), W1(9), TABLE}, sync[3] = {W0(0x05, 0), W1(9), TABLE};
    const size_t room = which->refusal[0] == ITS_ROW_TOO_SHORT ? BUDGET - 1 : 1024;
    ready(profile, 0);
    if (which->state == STOPPED) {
        put(lacks);
        check("a command that stops", write(CWRITER, 8, writer) == ITS_OPCODE_UNKNOWN);
    }
    if (which->state == OFF || which->state == WAITING || (which->state == STOPPED && which->offset == CBASER)) {
        check("off", write(CTLR, 4, 0) == 0);
    }
    if (which->state == WAITING) {
        put(sync);
        check("a command that waits", write(CWRITER, 8, writer) == 0);
    }
    if (which->state == UNCONFIGURED) {
        used_by_configure(profile, 0);
    }
    unit.words[0] += which->state == LAYOUT;
    /* The window ends one byte before the command that would come next, which only 6 has to do with. */
    const uint64_t bytes = used_by_write(writer + 31, room, which->offset, which->width, which->value + (which->from_writer ? writer : 0));
    check(which->what, told.numbers[0] == which->refusal[profile] && told.numbers[3] == (which->state == WAITING));
    return bytes;
}

/* What a read of the frame answers, by document 01's order: width, alignment and frame, then the identification registers, then the register's widths. */
static uint64_t refused(uint64_t offset, uint64_t width) {
    const int wide = (offset >= TYPER && offset < TYPER + 8) || (offset >= CBASER && offset < CREADR + 8) || (offset >= BASER && offset < BASER + 64);
    if ((width != 1 && width != 2 && width != 4 && width != 8) || offset % width != 0 || offset > FRAME - width) {
        return ITS_INVALID_ACCESS;
    }
    if (offset >= 0xffd0) {
        return ITS_IDENTIFICATION;
    }
    return (offset == CTLR || offset == IIDR ? width != 4 : wide && width < 4) ? ITS_INVALID_ACCESS : 0;
}

/* Every byte of the frame that has a register, and some that have none, at every width. */
static uint64_t read(uint32_t profile) {
    uint64_t most = 0;
    ready(profile, 0);
    for (uint64_t i = 0; i < 0x240; i++) {
        const uint64_t offset = i < 0x180 ? i : FRAME - 0x200 + i;
        for (uint8_t width = 0; width <= 9; width++) {
            const uint64_t bytes = used_by_read(offset, width);
            check("a read", told.numbers[0] == refused(offset, width));
            most = bytes > most ? bytes : most;
        }
    }
    return most;
}

static uint64_t read_of_none(uint32_t profile) {
    used_by_configure(profile, 0);
    const uint64_t bytes = used_by_read(CTLR, 4);
    check("a read of no unit", told.numbers[0] == ITS_UNSOUND);
    return bytes;
}

static uint64_t translate(uint32_t profile, uint32_t event, uint64_t refusal) {
    ready(profile, 1);
    if (refusal == ITS_UNSOUND) {
        used_by_configure(profile, 0);
    }
    const uint64_t bytes = used_by_translate(1, event);
    check("a message", told.numbers[0] == refusal);
    return bytes;
}

/* A reader that copies, as the published program has one: the search must find its copy. */
static uint64_t copying(const uint8_t *command) {
    uint8_t copy[32];
    for (int i = 0; i < 32; i++) {
        copy[i] = command[i];
    }
    __asm__ volatile("" : : "r"(copy) : "memory"); /* It stands there, as far as the compiler can know. */
    return copy[0];
}

static void control(void) {
    ready(ITS_BASE, 0);
    searched = put(kinds[0].words);
    const uint64_t words[10] = {of(searched)};
    const uint64_t bytes = used((call)copying, words);
    check("a reader that copies is not found", copies >= 2);
    tell("for comparison", "a reader that copies", bytes, bytes);
}

#ifdef ITS_TRACE
static uint8_t trace[2 * PAGE], out[PAGE];
static size_t traced;

static void add(uint64_t n, int bytes) {
    for (int i = 0; i < bytes; i++) {
        trace[traced++] = (uint8_t)(n >> 8 * i);
    }
}

static void mark(const char *letters) {
    add((uint8_t)letters[0], 1);
    add((uint8_t)letters[1], 1);
}

static void add_write(uint64_t offset, int width, uint64_t value) {
    mark("WR");
    add(offset, 8);
    add((uint64_t)width, 1);
    add(value, 8);
}

/* The refusal of the last write. */
static uint64_t last_refusal(size_t lines) {
    uint64_t refusal = 0;
    size_t at = lines - 1;
    while (at > 0 && !(out[at] == 'W' && out[at + 1] == 'R')) {
        at--;
    }
    for (at += 3; at < lines && out[at] != ' '; at++) {
        refusal = 10 * refusal + out[at] - '0';
    }
    return refusal;
}

/* One command by a trace: configuration, queue, the commands before it where it needs them, and then its own write. */
static uint64_t by_trace(uint32_t profile, const struct command *kind) {
    const int first = kind->alone ? 0 : BEFORE;
    traced = 0;
    mark("CF");
    add(65535, 4);
    add(BUDGET, 4);
    add(65536, 4);
    add(profile, 1);
    add(2, 1);
    add(0, 2);
    add(PROCESSOR, 2);
    add_write(CBASER, 8, VALID | QUEUE);
    add_write(CTLR, 4, 1);
    writer = 0;
    for (int i = 0; i < first; i++) {
        put(before[i].words);
    }
    searched = put(kind->words);
    mark("GM");
    add(QUEUE, 8);
    add(writer, 4);
    for (size_t i = 0; i < writer; i++) {
        add(queue[i], 1);
    }
    if (first) {
        add_write(CWRITER, 8, 32 * (uint64_t)first);
    }
    add_write(CWRITER, 8, 32 * (uint64_t)(first + 1));
    const uint64_t words[10] = {of(trace), traced, of(out), sizeof out};
    painted = SIZE;
    const uint64_t bytes = used((call)its_trace, words);
    painted = PAINTED;
    const uint64_t answer = its_trace(trace, traced, out, sizeof out);
    told.numbers[0] = last_refusal((size_t)(answer / 16));
    check(kind->what, answer % 16 == 0 && told.numbers[0] == kind->refusal[profile]);
    check("a copy of the command stands on the stack", copies == 0 || READ_COPIES);
    return bytes;
}
#endif

int host_main(void (*out_line)(const char *)) {
    say = out_line;
    tell("its_configure", "accepted", used_by_configure(ITS_BASE, BUDGET), used_by_configure(ITS_STRICT, BUDGET));
    tell("its_configure", "refused", used_by_configure(ITS_BASE, 0), used_by_configure(ITS_STRICT, 0));
    tell("its_read", "every byte of the registers and around them, at widths 0 to 9", read(ITS_BASE), read(ITS_STRICT));
    tell("its_read", "not configured", read_of_none(ITS_BASE), read_of_none(ITS_STRICT));
    tell("its_translate", "the first pair", translate(ITS_BASE, 0, 0), translate(ITS_STRICT, 0, 0));
    tell("its_translate", "the last pair", translate(ITS_BASE, 254, 0), translate(ITS_STRICT, 254, 0));
    tell("its_translate", "no pair", translate(ITS_BASE, 999, 8), translate(ITS_STRICT, 999, 8));
    tell("its_translate", "not configured", translate(ITS_BASE, 0, 1), translate(ITS_STRICT, 0, 1));
    for (int i = 0; i < KINDS; i++) {
        tell("its_write", kinds[i].what, command(ITS_BASE, &kinds[i]), command(ITS_STRICT, &kinds[i]));
    }
    tell("its_write", "many commands", many(ITS_BASE), many(ITS_STRICT));
    for (int i = 0; i < OTHERS; i++) {
        tell("its_write", others[i].what, other(ITS_BASE, &others[i]), other(ITS_STRICT, &others[i]));
    }
#ifdef ITS_TRACE
    for (int i = 0; i < KINDS; i++) {
        if (!kinds[i].full) {
            tell("its_trace", kinds[i].what, by_trace(ITS_BASE, &kinds[i]), by_trace(ITS_STRICT, &kinds[i]));
        }
    }
#endif
    control();
    return wrong != 0;
}
