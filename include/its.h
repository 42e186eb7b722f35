/* The proved ITS as plain C calls: a whole trace at once, and the calls that a host makes. docs/HOSTS.md shows how to make and link the archives. */
#ifndef ITS_H
#define ITS_H

#include <stddef.h>
#include <stdint.h>

#ifdef __cplusplus
extern "C" {
#endif

/* In every call: the runs of memory must not overlap. A pointer with length 0 is not followed, but must not be null. No call keeps a pointer. */

/*
 * The trace (libtrace.a).
 *
 * Runs the records of a trace, from a unit that is not configured yet, and writes one line for each answer into the output.
 *
 * The trace is trace_length bytes; no byte of it is changed. At most the first 65,536 bytes of the output are used. Only whole lines are
 * written; the bytes behind them stay as they were, and no others are touched.
 *
 * Returns 16 times the number of bytes written, plus 11 if a line did not fit: the lines before it are written, and the run ends there.
 * Every trace gets an answer, damaged ones too: where a record is broken the line is "??" with the offset of its mark, and it is the last.
 */
uint64_t its_trace(const uint8_t *trace, size_t trace_length, uint8_t *output, size_t output_length);

/*
 * The calls for hosts (libhost.a).
 *
 * A unit is 608 numbers that the host owns. The host copies and stores them as it likes, and looks into them if it wants to: which numbers mean
 * what stands in crates/lent_tables/specs/Numbers.antt. Nothing is asked of them: whatever they are, each call answers. Numbers that are no sound
 * unit, all of them 0 for example, are refused with 1.
 *
 * The first number, words[0], says which layout the others have; that of this version is ITS_LAYOUT. Under any other number there, as in a row of
 * zeros or in one that a program of another version kept, they are a unit that answers 1 to everything. its_read, its_write and its_translate then
 * leave all of them as they are; its_configure makes a fresh unit of them. A version that gives some number another meaning counts the layout up.
 * Numbers that were kept before there were layouts have the highest LPI in that place, 8192 or more, and so are never taken for a unit.
 *
 * The archive for a bare Arm machine uses the general registers only, so a trap handler need save no others for a call; memcpy, memmove and
 * memset are the host's own. docs/HOSTS.md says how much stack each call needs: none more than 1,024 bytes, its arguments included, beside what the
 * host's own functions use.
 *
 * Each call returns the number of its refusal, 0 if there is none, and puts five numbers into told, the first of them the same:
 *
 *   its_configure   refusal, 0, 0, 0, 0
 *   its_read        refusal, value, 0, 0, 0
 *   its_write       refusal, opcode, offset, done, actions
 *   its_translate   refusal, LPI, processor, 0, 0
 */
#define ITS_WORDS 608
#define ITS_TOLD 5
#define ITS_LAYOUT 2

typedef struct {
    uint64_t words[ITS_WORDS];
} its_unit;

typedef struct {
    uint64_t numbers[ITS_TOLD];
} its_told;

/*
 * Why a call is refused. Of its_write 20 to 27, 6, 8 and 9 are of a command in the queue: CREADR stands on it, told has its opcode (0 with 6) and
 * CREADR as offset, it changed nothing, and the commands before it were carried out, as many as done says, and their actions handed over. With
 * every other refusal done and actions are 0. 5 leaves what was written stored and runs nothing; its offset is CREADR. The rest change nothing, but
 * for a refused its_configure; the offset of 7 is the refused one. In strict a refused command stalls the unit (see ITS_STRICT), and no other refusal does.
 */
enum its_refusal {
    ITS_UNSOUND = 1, /* The settings are not allowed; or the unit is not configured, or its numbers are of another layout or of no unit. */
    ITS_INVALID_ACCESS = 2, /* No such access: its width, alignment, or place. */
    ITS_IDENTIFICATION = 3, /* An identification register, which the host answers itself. */
    ITS_BASE_ZERO = 4, /* CBASER with a queue at address 0. */
    ITS_BUDGET_EXCEEDED = 5, /* More commands wait than the budget allows. */
    ITS_NOT_IN_WINDOW = 6, /* A command is not wholly in the window. */
    ITS_WRITER_REFUSED = 7, /* An offset for CWRITER that is no place of the queue. */
    ITS_RESOURCE_NOT_FOUND = 8, /* INT, CLEAR or a message: the pair does not translate. */
    ITS_TABLE_FULL = 9, /* A command needs a new record, and its table is full. */
    ITS_ROW_TOO_SHORT = 10, /* The row has less room than the budget. */
    ITS_OPCODE_UNKNOWN = 20, /* A command that this unit does not have. */
    ITS_LPI_OUT_OF_RANGE = 21, /* MAPTI, MAPI: the LPI is below 8192 or above the limit. */
    ITS_DEVICE_UNMAPPED = 22, /* MAPTI, MAPI: the device is not mapped. */
    ITS_EVENT_BEYOND_BITS = 23, /* MAPTI, MAPI: the event does not fit the device. */
    ITS_COLLECTION_UNMAPPED = 24, /* MAPTI, MAPI, MOVI, INVALL: the collection is not mapped. */
    ITS_PAIR_UNMAPPED = 25, /* MOVI, DISCARD, INV: the device's event is not mapped. */
    ITS_PROCESSOR_UNLISTED = 26, /* MAPC: the processor is not of this unit. */
    ITS_DEVICE_TOO_LARGE = 27, /* Strict only, before any other check of a command: it names a device above 65535. */
};

/* The settings of a unit, each at its place in the row that its_configure takes. */
#define ITS_LPI_LIMIT 0 /* The highest LPI, 8192 to 16777215. */
#define ITS_COMMAND_BUDGET 1 /* The most commands that one write may run, 1 to 1024. */
#define ITS_FRAME_SIZE 2 /* The frame in bytes, 65536 or 131072. */
#define ITS_PROFILE 3 /* ITS_BASE or ITS_STRICT. */
#define ITS_SETTINGS 4 /* So many places this version knows. */

/*
 * The profiles. Base answers as the published program, arm_vgic 0.6.2, but for what docs/DIFFERENCES.md lists as S01 and on. Strict differs
 * from it in this: a valid MAPD of a mapped device first drops the device's pairs; a command that names a device above 65535 is refused with 27; while
 * bit 63 of CBASER is 0 the queue does not run, and no write is refused with 5; and a refused command stalls the unit.
 *
 * A stalled unit runs nothing, and no write without ITS_RETRY is refused with 5. Reads of CREADR have ITS_STALLED set, at 8 bytes and in the low half;
 * the offsets that its_write tells do not. A CWRITER write that is accepted and has ITS_RETRY set ends it, also while the unit is disabled; an enabled one
 * then goes on with the command on which CREADR stands, or answers 5 where more wait than the budget, and is not stalled by that. A CBASER write that is
 * stored ends it too, and starts anew. Nothing else does. In base a CWRITER with ITS_RETRY is refused with 7.
 */
#define ITS_RETRY 1 /* Bit 0 of CWRITER, strict only. It is taken off before the offset is looked at, and is not stored. */
#define ITS_STALLED 1 /* Bit 0 of CREADR, strict only. */
#define ITS_BASE 0
#define ITS_STRICT 1

/*
 * Makes the unit a fresh one of these settings, with these processors, 1 to 16 different ones. Where that is refused, with 1, the unit is one that
 * answers 1 to everything.
 *
 * A setting that is left out, since the row ends before its place, is 0. One beyond those that this version knows must be 0, else the configuration
 * is refused. So a setting that a later version adds breaks no caller.
 */
uint64_t its_configure(its_unit *unit, const uint32_t *settings, size_t setting_count, const uint16_t *processors, size_t processor_count,
    its_told *told);

/* Reads a register of the frame. */
uint64_t its_read(const its_unit *unit, uint64_t offset, uint8_t width, its_told *told);

/*
 * Writes a register of the frame; an enabled unit then runs the commands that wait in its queue (a strict one only while bit 63 of CBASER is 1 and it is
 * not stalled).
 *
 * The window is guest memory: window_length bytes, the first of them at the guest address window_address; the queue is read from it. The row
 * gets the actions of the INT and CLEAR that this call carried out, one number each, the first first; its numbers behind them stay as they were.
 * A row with less room than the command budget is refused with 10, and 1,024 are enough for any budget.
 *
 * After every call, refused or not, the host delivers the first actions of the row, as many as actions says (told->numbers[4]), in order; then it
 * looks at the refusal. What a refused write handed over is not handed over again when the refused command is tried again.
 */
uint64_t its_write(its_unit *unit, uint64_t window_address, const uint8_t *window, size_t window_length, uint64_t *row, size_t row_length,
    uint64_t offset, uint8_t width, uint64_t value, its_told *told);

/* Where a message of a device and event goes. */
uint64_t its_translate(const its_unit *unit, uint32_t device, uint32_t event, its_told *told);

/* The parts of an action of the row. */
static inline uint32_t its_action_lpi(uint64_t action) { return (uint32_t)action; }
static inline uint16_t its_action_processor(uint64_t action) { return (uint16_t)(action >> 32); }
static inline int its_action_pending(uint64_t action) { return (int)(action >> 48 & 1); }

#ifdef __cplusplus
}
#endif

#endif
