// The calls of the rehearsal master for C and C++: load, advance, preview, save and sheet. They are in the static
// library libboundary.a, for x86-64 Linux, which needs only the C library. This is the declaration of record. What the
// calls promise for every argument is proved; crates/boundary/specs/Exported.antt says it, and docs/API.md explains it.
//
// A model lies in words of 64 bits that the caller lends: those of a table, which no call but a load writes, and those
// of a state. Every number is a word, a signed one in two's complement. The calls allocate nothing and keep nothing.
//
// Free words are those on which no answer depends: the value of a held signal or of an output that is absent, the spans
// of a part after its count of spans, and the words after the model's. A load leaves 0 in the first three. An advance
// or a preview that commits leaves 0 in the value of an absent output; that of an absent held signal is then 0, or the
// old state's word. One that is refused and writes `next` leaves the old state's words there. The words after the
// model's are kept.
//
// The caller owes what a slice is: a pointer that is not null (nor for no words) and is aligned, so many words or bytes
// from it on, and that those lent for writing overlap no other. Nothing else is asked: any words, bytes and numbers are
// answered.
//
// Each call answers a number, DOZHUMEK_NOT_REFUSED or a refusal's, which is the first of its words for `out` too. What
// a call answers and writes elsewhere does not depend on `out`: of its words those that `out` has room for are written,
// from the first on, and the others are left out. An `out` of no words is enough for a caller that wants the number
// alone. The words and bytes after those that a call writes are kept.
#ifndef DOZHUMEK_H
#define DOZHUMEK_H

#include <stddef.h>
#include <stdint.h>

#ifdef __cplusplus
extern "C" {
#endif

// The most parts of a model, and the most spans of a part.
#define DOZHUMEK_PARTS 32
#define DOZHUMEK_SPANS 8

// How many words a table has for each part, and a state, and how many either has before them.
#define DOZHUMEK_TABLE_RECORD 18
#define DOZHUMEK_STATE_RECORD 9
#define DOZHUMEK_HEAD 2

// How many words the table of so many parts has, and a state of it; also the place of the first word of a part's
// record, by the part's number.
#define DOZHUMEK_TABLE_WORDS(parts) (DOZHUMEK_HEAD + DOZHUMEK_TABLE_RECORD * (parts))
#define DOZHUMEK_STATE_WORDS(parts) (DOZHUMEK_HEAD + DOZHUMEK_STATE_RECORD * (parts))

// The place of a field of a part, by the part's number and the field's place in its record.
#define DOZHUMEK_TABLE_AT(part, field) (DOZHUMEK_TABLE_WORDS(part) + (field))
#define DOZHUMEK_STATE_AT(part, field) (DOZHUMEK_STATE_WORDS(part) + (field))

// How many bytes the saved table of so many parts has at most, and that of any.
#define DOZHUMEK_SAVE_BYTES(parts) (3 + 59 * (parts))
#define DOZHUMEK_SAVE_MOST 1891

// How many bytes a sheet's line has, with its line feed.
#define DOZHUMEK_SHEET_LINE 79

// The largest wanted step, the last tick and the last microstep.
#define DOZHUMEK_MOST_WANTED 1000000000
#define DOZHUMEK_LAST_TICK UINT64_C(1000000000000000000)
#define DOZHUMEK_LAST_MICROSTEP 999

// How many words each call has for `out`.
#define DOZHUMEK_LOAD_OUT 2
#define DOZHUMEK_ADVANCE_OUT 5
#define DOZHUMEK_PREVIEW_OUT 5
#define DOZHUMEK_SAVE_OUT 2
#define DOZHUMEK_SHEET_OUT 2

// The words of `out`: the number of every call; the position of a load; the length of a save and of a sheet; the step,
// rounds, revisions and last ceiling of an advance and of a preview.
#define DOZHUMEK_OUT_NUMBER 0
#define DOZHUMEK_OUT_POSITION 1
#define DOZHUMEK_OUT_LENGTH 1
#define DOZHUMEK_OUT_STEP 1
#define DOZHUMEK_OUT_ROUNDS 2
#define DOZHUMEK_OUT_REVISIONS 3
#define DOZHUMEK_OUT_CEILING 4

// The words of a table before its parts: the default magnitude, and how many parts are in use.
#define DOZHUMEK_TABLE_MAGNITUDE 0
#define DOZHUMEK_TABLE_COUNT 1

// The words of a part in a table. The last is not of the part: it is the number at the part's place of the part order.
#define DOZHUMEK_TABLE_KIND 0
#define DOZHUMEK_TABLE_PREFERENCE 1
#define DOZHUMEK_TABLE_A 2
#define DOZHUMEK_TABLE_B 3
#define DOZHUMEK_TABLE_P 4
#define DOZHUMEK_TABLE_SPAN_COUNT 5
#define DOZHUMEK_TABLE_FIRST_SPAN 6
#define DOZHUMEK_TABLE_PORT_0 14
#define DOZHUMEK_TABLE_PORT_1 15
#define DOZHUMEK_TABLE_RATIO 16
#define DOZHUMEK_TABLE_ORDER 17

// The words of a state before its parts: the tick and the microstep of the point.
#define DOZHUMEK_STATE_T 0
#define DOZHUMEK_STATE_N 1

// The words of a part in a state. A held signal and an output are two words: a code of dozhumek_signal, and the value.
#define DOZHUMEK_STATE_LOCAL 0
#define DOZHUMEK_STATE_HELD 1
#define DOZHUMEK_STATE_SPEED 2
#define DOZHUMEK_STATE_SIGNAL 3
#define DOZHUMEK_STATE_SIGNAL_VALUE 4
#define DOZHUMEK_STATE_OUTPUT 5
#define DOZHUMEK_STATE_OUTPUT_VALUE 6
#define DOZHUMEK_STATE_SIDE 7
#define DOZHUMEK_STATE_MARK 8

// A part's preference where it has none, a port that is unwired, and a port that reads the part with a number.
#define DOZHUMEK_NO_PREFERENCE 255
#define DOZHUMEK_UNWIRED 0
#define DOZHUMEK_WIRED_FROM(part) ((uint64_t)(part) + 1)

// The command bytes of a stream; the operands after them have the lowest byte first.
enum dozhumek_command {
    // Begin: the default magnitude, 1 byte.
    DOZHUMEK_COMMAND_BEGIN = 1,
    // Part: kind and preference, 1 byte each, then a, b and p, 4 bytes each.
    DOZHUMEK_COMMAND_PART = 2,
    // Span of the drive before it: 4 bytes.
    DOZHUMEK_COMMAND_SPAN = 3,
    // Wire: source part, receiving part and receiving port, 1 byte each.
    DOZHUMEK_COMMAND_WIRE = 4,
    // End of the table, where a load ends and the score begins.
    DOZHUMEK_COMMAND_END = 5,
    // A wanted step of the score, 4 bytes, which the caller reads.
    DOZHUMEK_COMMAND_WANTED = 6
};

// The kinds of part.
enum dozhumek_kind {
    DOZHUMEK_KIND_CONSTANT = 0,
    DOZHUMEK_KIND_GAIN = 1,
    DOZHUMEK_KIND_ADDER = 2,
    DOZHUMEK_KIND_SQUARE = 3,
    DOZHUMEK_KIND_PULSE = 4,
    DOZHUMEK_KIND_DELAY = 5,
    DOZHUMEK_KIND_INTEGRATOR = 6,
    DOZHUMEK_KIND_RESET_INTEGRATOR = 7,
    DOZHUMEK_KIND_DETECTOR = 8,
    DOZHUMEK_KIND_HOLD = 9,
    DOZHUMEK_KIND_SAMPLER = 10,
    DOZHUMEK_KIND_DRIVE = 11,
    DOZHUMEK_KIND_CLAPPER = 12
};

// The code of a signal: absent, and any word after it, or present, and its value after it.
enum dozhumek_signal {
    DOZHUMEK_SIGNAL_ABSENT = 0,
    DOZHUMEK_SIGNAL_PRESENT = 1
};

// The side of zero on which a detector last saw its input; zero itself is on neither.
enum dozhumek_side {
    DOZHUMEK_SIDE_UNSET = 0,
    DOZHUMEK_SIDE_NEGATIVE = 1,
    DOZHUMEK_SIDE_POSITIVE = 2
};

// A detector's pending mark: none, 1 or -1.
enum dozhumek_mark {
    DOZHUMEK_MARK_CLEAR = 0,
    DOZHUMEK_MARK_RISING = 1,
    DOZHUMEK_MARK_FALLING = 2
};

// The number of a call that is not refused: a load accepted, an advance committed, a preview of one, bytes written.
#define DOZHUMEK_NOT_REFUSED 0

// The numbers of refusals, each with its meaning. A load answers those up to 12, and 25; an advance and a preview 20 to
// 25; a save 24 and 25; a sheet 24 to 26.
enum dozhumek_refusal {
    // the stream ends before End, or inside a command
    DOZHUMEK_REFUSED_CUT = 1,
    // an unknown command byte
    DOZHUMEK_REFUSED_UNKNOWN_COMMAND = 2,
    // a command out of place: Begin not first or twice, a span not after a drive, `06` before End, a table's command in
    // the score
    DOZHUMEK_REFUSED_OUT_OF_PLACE = 3,
    // an operand out of its range, an unknown kind or preference, or an operand that the kind does not name is not 0
    DOZHUMEK_REFUSED_OUT_OF_RANGE = 5,
    // a 33rd part or a ninth span
    DOZHUMEK_REFUSED_TOO_MANY = 6,
    // a wire names a part or port that is not there (yet)
    DOZHUMEK_REFUSED_NOT_THERE = 7,
    // the port is wired already
    DOZHUMEK_REFUSED_ALREADY_WIRED = 8,
    // no parts
    DOZHUMEK_REFUSED_NO_PARTS = 9,
    // some P is above 10^18
    DOZHUMEK_REFUSED_PERIOD_TOO_LONG = 10,
    // a loop of wires into direct ports (gain, adder, hold, sampler, port 1 of a reset integrator)
    DOZHUMEK_REFUSED_LOOP = 11,
    // a span that is not above the one before
    DOZHUMEK_REFUSED_SPAN_NOT_RISING = 12,
    // a wanted step of 0 or above 10^9
    DOZHUMEK_REFUSED_WANTED_OUT_OF_RANGE = 20,
    // some part is due at microstep 999
    DOZHUMEK_REFUSED_DUE_AT_LAST_MICROSTEP = 21,
    // no part is due and no step above 0 is accepted by all
    DOZHUMEK_REFUSED_NO_STEP_ACCEPTED = 22,
    // the step may lead past tick 10^18
    DOZHUMEK_REFUSED_PAST_LAST_TICK = 23,
    // the model is not sound; any sound model is accepted, altered or not
    DOZHUMEK_REFUSED_NOT_SOUND = 24,
    // a lent buffer is too short; nothing is written, and the writing calls (`save`, `sheet`, those of `write_lines`)
    // return the length needed
    DOZHUMEK_REFUSED_TOO_SHORT = 25,
    // a part chosen for a sheet line does not exist, or a number of the committed answer handed in is wider than its
    // field
    DOZHUMEK_REFUSED_NOT_PRINTABLE = 26
};

// Loads the table at the start of a stream: with number 0 its fresh model is in `table` and `state`, and the position
// is that after End; with any other both are kept. The position of a refusal is that of the command at fault, with 9,
// 10 and 11 End's. With 1 it is that of the command that is cut, or the stream's length where no command follows. An
// accepted table of k parts that is lent fewer than DOZHUMEK_TABLE_WORDS(k) or DOZHUMEK_STATE_WORDS(k) words is too
// short, at the position after End.
uint64_t dozhumek_load(const uint8_t *stream, size_t stream_length, uint64_t *table, size_t table_length,
    uint64_t *state, size_t state_length, uint64_t *out, size_t out_length);

// Advances the model by at most `wanted`: with number 0 the state of the new point is in `next`, and the caller goes on
// with that; with any other the caller goes on with `old`, which with 21 and 22 is in `next` again, and else `next` is
// kept. Words that spell no sound model are refused with 24; a `next` of fewer than DOZHUMEK_STATE_WORDS(k) words is
// too short, where nothing else bars the call.
uint64_t dozhumek_advance(const uint64_t *table, size_t table_length, const uint64_t *old, size_t old_length,
    uint64_t wanted, uint64_t *next, size_t next_length, uint64_t *out, size_t out_length);

// Answers into `out` what an advance of the same arguments would; the caller goes on with `old` whatever the number is.
// In `next` is the state of the answer's model: with number 0 that of the new point, and else the old one again. It is
// kept where it is too short, or the words spell no model.
uint64_t dozhumek_preview(const uint64_t *table, size_t table_length, const uint64_t *old, size_t old_length,
    uint64_t wanted, uint64_t *next, size_t next_length, uint64_t *out, size_t out_length);

// Saves the model's table as bytes, from which a load makes the fresh model again: with number 0 they are at the front
// of `buffer`, so many as the length says; with any other the buffer is kept. Too short comes with the length that is
// needed, 24 with length 0.
uint64_t dozhumek_save(const uint64_t *table, size_t table_length, const uint64_t *state, size_t state_length,
    uint8_t *buffer, size_t buffer_length, uint64_t *out, size_t out_length);

// Prints the sheet's line of an answer: `outcome` is the DOZHUMEK_ADVANCE_OUT words that an advance or a preview wrote,
// any numbers, `table` and `state` are the words of that answer's model, and `first`, `second` and `third` are the
// numbers of the parts whose outputs are shown. With number 0 the line is at the front of `buffer`, its length
// DOZHUMEK_SHEET_LINE; with any other the buffer is kept. Too short comes with that length too, 24 and 26 with length
// 0. An `outcome` of fewer words spells no answer and is refused with 24, as words that spell no model are.
uint64_t dozhumek_sheet(const uint64_t *table, size_t table_length, const uint64_t *state, size_t state_length,
    const uint64_t *outcome, size_t outcome_length, uint64_t first, uint64_t second, uint64_t third,
    uint8_t *buffer, size_t buffer_length, uint64_t *out, size_t out_length);

#ifdef __cplusplus
}
#endif

#endif
