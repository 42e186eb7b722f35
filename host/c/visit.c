/* A host's calls from C, from a fresh unit to a message that arrives, with what each must answer; then a strict unit beside a base one. It needs
   nothing of a C library: host_main is handed a function that writes a line. The archives for Linux and for a bare machine are tried with it
   (tools/host.sh). */
#include "its.h"

enum { CTLR = 0x00, CBASER = 0x80, CWRITER = 0x88, CREADR = 0x90 };
enum { QUEUE = 0x40000, SEAT = 7, TOUCH = 2, COLLECTION = 1, PROCESSOR = 3, LPI = 8200 };
#define VALID ((uint64_t)1 << 63)

static its_unit unit;
static its_told told;
static uint8_t queue[4096];
static size_t used;
static uint64_t row[64];
static uint64_t delivered;
static int wrong;
static void (*say)(const char *line);

static void check(const char *what, int right) {
    if (!right) {
        say(what);
        wrong++;
    }
}

static int is(uint64_t a, uint64_t b, uint64_t c, uint64_t d, uint64_t e) {
    const uint64_t *n = told.numbers;
    return n[0] == a && n[1] == b && n[2] == c && n[3] == d && n[4] == e;
}

static void put(uint64_t w0, uint64_t w1, uint64_t w2) {
    const uint64_t words[4] = {w0, w1, w2, 0};
    for (int i = 0; i < 32; i++) {
        queue[used++] = (uint8_t)(words[i / 8] >> 8 * (i % 8));
    }
}

/* A write, and then, refused or not, what its host does: each action handed over is delivered. Here the last of them is kept. */
static uint64_t write(uint64_t offset, uint8_t width, uint64_t value) {
    const uint64_t refusal = its_write(&unit, QUEUE, queue, used, row, 64, offset, width, value, &told);
    delivered = 0;
    for (uint64_t i = 0; i < told.numbers[4]; i++) {
        delivered = row[i];
    }
    return refusal;
}

static int is_touch(uint64_t action) {
    return its_action_lpi(action) == LPI && its_action_processor(action) == PROCESSOR && its_action_pending(action);
}

/* What its_configure answers to the first settings of this row. */
static uint64_t configure(const uint32_t *settings, size_t count) {
    static const uint16_t processors[2] = {0, PROCESSOR};
    used = 0;
    return its_configure(&unit, settings, count, processors, 2, &told);
}

static uint64_t message(uint64_t device) { return its_translate(&unit, (uint32_t)device, TOUCH, &told); }

/* The settings of a unit. The last place is one that this version does not know. */
static uint32_t settings[ITS_SETTINGS + 1] = {[ITS_LPI_LIMIT] = 65535, [ITS_COMMAND_BUDGET] = 64, [ITS_FRAME_SIZE] = 65536};

static void a_visit(void) {
    const uint64_t seat = (uint64_t)SEAT << 32;
    check("not configured: refused with 1", its_read(&unit, CTLR, 4, &told) == 1 && is(1, 0, 0, 0, 0));
    check("a frame size left out is 0: refused with 1", configure(settings, ITS_FRAME_SIZE) == 1);
    check("a configuration", configure(settings, ITS_SETTINGS) == 0 && is(0, 0, 0, 0, 0));
    check("a row that is too short: refused with 10", its_write(&unit, 0, queue, 0, row, 63, CTLR, 4, 1, &told) == 10);
    check("the queue's base", write(CBASER, 8, QUEUE) == 0);
    check("enabled", write(CTLR, 4, 1) == 0);
    check("CTLR reads back", its_read(&unit, CTLR, 4, &told) == 0 && is(0, 0x80000001, 0, 0, 0));
    check("nothing is mapped", its_translate(&unit, SEAT, TOUCH, &told) == 8 && is(8, 0, 0, 0, 0));
    put(0x08 | seat, 3, VALID);
    put(0x09, 0, VALID | PROCESSOR << 16 | COLLECTION);
    put(0x0a | seat, TOUCH | (uint64_t)LPI << 32, COLLECTION);
    put(0x03 | seat, TOUCH, 0);
    check("MAPD, MAPC, MAPTI, INT", write(CWRITER, 8, used) == 0 && is(0, 0, 0, 4, 1));
    check("the action", is_touch(delivered));
    check("the pair translates", its_translate(&unit, SEAT, TOUCH, &told) == 0 && is(0, LPI, PROCESSOR, 0, 0));
    check("CREADR", its_read(&unit, CREADR, 8, &told) == 0 && is(0, 128, 0, 0, 0));
    put(0x03 | seat, TOUCH, 0);
    put(0x0e, 0, 0);
    check("INT, then MOVALL, which the unit lacks: refused with 20", write(CWRITER, 8, used) == ITS_OPCODE_UNKNOWN && is(20, 0x0e, 160, 1, 1));
    check("the INT's action all the same", is_touch(delivered));
    check("MOVALL tried again: no action again", write(CTLR, 4, 1) == ITS_OPCODE_UNKNOWN && is(20, 0x0e, 160, 0, 0));
    used = 160;
    put(0x05, 0, PROCESSOR << 16);
    check("SYNC in its place", write(CTLR, 4, 1) == 0 && is(0, 0, 0, 1, 0));
    put(0x0f | seat, TOUCH + 1, 0);
    check("DISCARD of no pair: refused with 25", write(CWRITER, 8, used) == ITS_PAIR_UNMAPPED && is(25, 0x0f, 192, 0, 0));
}

/* The numbers that a host keeps. Under another layout's number they are no unit, and no call but its_configure changes them. */
static void a_kept_unit(void) {
    check("the layout", unit.words[0] == ITS_LAYOUT);
    unit.words[0] = ITS_LAYOUT + 1;
    check("another layout, a message: refused with 1", message(SEAT) == ITS_UNSOUND);
    check("another layout, a read: refused with 1", its_read(&unit, CTLR, 4, &told) == ITS_UNSOUND);
    check("another layout, a write: refused with 1", write(CTLR, 4, 0) == ITS_UNSOUND && unit.words[0] == ITS_LAYOUT + 1);
    unit.words[0] = ITS_LAYOUT;
    check("this layout again, and the unit is as it was", message(SEAT) == 0 && its_read(&unit, CTLR, 4, &told) == 0 && is(0, 0x80000001, 0, 0, 0));
}

/* Where the profile stands among the words of this layout (crates/lent_tables/specs/Numbers.antt). For a test; a host need not look. */
enum { PROFILE_WORD = 4 };

/* Which rows of settings are taken. The first three stand as they are above. */
static void rows_of_settings(void) {
    settings[ITS_PROFILE] = 2;
    check("no such profile: refused with 1", configure(settings, ITS_SETTINGS) == 1);
    check("the profile left out: base", configure(settings, ITS_PROFILE) == 0 && unit.words[PROFILE_WORD] == ITS_BASE);
    settings[ITS_PROFILE] = ITS_STRICT;
    check("a setting that is not known yet, 0", configure(settings, ITS_SETTINGS + 1) == 0);
    settings[ITS_SETTINGS] = 1;
    check("a setting that is not known yet, 1: refused with 1", configure(settings, ITS_SETTINGS + 1) == 1);
}

/* Two seats are mapped, and then the first of them again: in base its old pair is still there, in strict it has gone. */
static void mapped_again(uint32_t profile, uint64_t late) {
    settings[ITS_PROFILE] = profile;
    check("a profile", configure(settings, ITS_SETTINGS) == 0);
    check("the queue's base, with bit 63", write(CBASER, 8, VALID | QUEUE) == 0 && write(CTLR, 4, 1) == 0);
    put(0x09, 0, VALID | PROCESSOR << 16 | COLLECTION);
    for (uint64_t device = SEAT; device <= SEAT + 1; device++) {
        put(0x08 | device << 32, 3, VALID);
        put(0x0a | device << 32, TOUCH | (LPI + device) << 32, COLLECTION);
    }
    put(0x08 | (uint64_t)SEAT << 32, 0, VALID);
    check("the seats, and the first again", write(CWRITER, 8, used) == 0 && is(0, 0, 0, 6, 0));
    check("the first seat's late message", message(SEAT) == late);
    check("the second seat's message", message(SEAT + 1) == 0 && is(0, LPI + SEAT + 1, PROCESSOR, 0, 0));
}

static int creadr(uint8_t width, uint64_t value) { return its_read(&unit, CREADR, width, &told) == 0 && is(0, value, 0, 0, 0); }

/* A refused command stalls a strict unit: its driver sees it, mends the command in memory, and writes CWRITER with Retry. */
static void stalled(void) {
    check("CREADR shows Stalled", creadr(8, 224 | ITS_STALLED) && creadr(4, 224 | ITS_STALLED));
    check("CTLR tries nothing", write(CTLR, 4, 1) == 0 && is(0, 0, 0, 0, 0));
    check("CWRITER without Retry tries nothing", write(CWRITER, 8, used) == 0 && is(0, 0, 0, 0, 0));
    check("more than the budget wait, and no 5", write(CWRITER, 8, 4064) == 0 && is(0, 0, 0, 0, 0));
    check("Retry with an offset that is refused", write(CWRITER, 8, 4096 | ITS_RETRY) == ITS_WRITER_REFUSED && is(7, 0, 4096, 0, 0));
    check("still stalled", creadr(8, 224 | ITS_STALLED));
    check("tried again with Retry: refused with 27", write(CWRITER, 8, used | ITS_RETRY) == ITS_DEVICE_TOO_LARGE && is(27, 0x08, 224, 0, 0));
    used = 224;
    put(0x05, 0, PROCESSOR << 16);
    check("SYNC in its place, and Retry", write(CWRITER, 8, used | ITS_RETRY) == 0 && is(0, 0, 0, 1, 0));
    check("CREADR without Stalled", creadr(8, 256));
    put(0x0e, 0, 0);
    check("MOVALL: refused with 20", write(CWRITER, 8, used) == ITS_OPCODE_UNKNOWN && creadr(8, 256 | ITS_STALLED));
}

/* The other things in which a strict unit differs. It is the unit that mapped_again left. */
static void strict(void) {
    put(0x08 | (uint64_t)65535 << 32, 3, VALID);
    check("MAPD of device 65535", write(CWRITER, 8, used) == 0 && is(0, 0, 0, 1, 0));
    put(0x08 | (uint64_t)65536 << 32, 3, VALID);
    check("MAPD of device 65536: refused with 27", write(CWRITER, 8, used) == ITS_DEVICE_TOO_LARGE && is(27, 0x08, 224, 0, 0));
    stalled();
    used = 0;
    put(0x05, 0, PROCESSOR << 16);
    check("off, and the queue's base without bit 63", write(CTLR, 4, 0) == 0 && write(CBASER, 8, QUEUE) == 0 && write(CTLR, 4, 1) == 0);
    check("SYNC waits", write(CWRITER, 8, used) == 0 && is(0, 0, 0, 0, 0));
    check("CREADR stays", its_read(&unit, CREADR, 8, &told) == 0 && is(0, 0, 0, 0, 0));
    check("more than the budget wait", write(CWRITER, 8, 65 * 32) == 0 && is(0, 0, 0, 0, 0));
}

int host_main(void (*line)(const char *)) {
    say = line;
    a_visit();
    a_kept_unit();
    rows_of_settings();
    mapped_again(ITS_BASE, 0);
    mapped_again(ITS_STRICT, ITS_RESOURCE_NOT_FOUND);
    strict();
    line(wrong ? "visit: wrong answers" : "visit: every answer as expected");
    return wrong != 0;
}
