// The exported calls from C, by include/dozhumek.h alone: small tables are loaded, advanced, previewed, saved and
// printed, the words are read by the header's places, and every refusal is met and told by the header's name. Prints
// how many checks passed; the status is 1, and each difference is said, where one did not.
#include "dozhumek.h"
#include <stdio.h>
#include <string.h>

static int checks, differences;

// Counts a check, and says what it found where that is not what is due.
static void check(const char *what, uint64_t is, uint64_t due) {
    checks++;
    if (is == due) return;
    differences++;
    printf("header: %s is %lld instead of %lld\n", what, (long long)is, (long long)due);
}

// The stream that is loaded.

static uint8_t stream[1024];
static size_t length;

// Puts a number after the stream, the lowest byte first.
static void put(int64_t number, int bytes) {
    uint64_t rest = (uint64_t)number;
    for (; bytes > 0; bytes--, rest >>= 8) stream[length++] = (uint8_t)rest;
}

// Begins a stream anew, with a default magnitude.
static void begin(int magnitude) {
    length = 0;
    put(DOZHUMEK_COMMAND_BEGIN, 1), put(magnitude, 1);
}

// Puts a part with a preference.
static void put_part(int kind, int preference, int64_t a, int64_t b, int64_t p) {
    put(DOZHUMEK_COMMAND_PART, 1), put(kind, 1), put(preference, 1), put(a, 4), put(b, 4), put(p, 4);
}

// Puts a part without a preference.
static void plain(int kind, int64_t a, int64_t b, int64_t p) {
    put_part(kind, DOZHUMEK_NO_PREFERENCE, a, b, p);
}

// Puts a span.
static void span(int64_t ticks) {
    put(DOZHUMEK_COMMAND_SPAN, 1), put(ticks, 4);
}

// Puts a wire.
static void wire(int source, int part, int port) {
    put(DOZHUMEK_COMMAND_WIRE, 1), put(source, 1), put(part, 1), put(port, 1);
}

// A number that rises past a detector: document 01's played example.
static void crossing(void) {
    begin(0), plain(DOZHUMEK_KIND_CONSTANT, 2, 0, 0), plain(DOZHUMEK_KIND_INTEGRATOR, -7, 0, 0);
    plain(DOZHUMEK_KIND_DETECTOR, 0, 0, 1), wire(0, 1, 0), wire(1, 2, 0), put(DOZHUMEK_COMMAND_END, 1);
}

// A drive that accepts steps of 2 and of 5, and a clapper on a coarser clock.
static void driven(void) {
    begin(1), plain(DOZHUMEK_KIND_CONSTANT, 3, 0, 0), plain(DOZHUMEK_KIND_DRIVE, 0, 0, 0), span(2), span(5);
    put_part(DOZHUMEK_KIND_CLAPPER, 0, 10, -2, 0), wire(0, 1, 0), wire(0, 2, 0), put(DOZHUMEK_COMMAND_END, 1);
}

// The words that are lent: of a table, of two states, and of an answer; and a buffer.

#define FILL 9
static uint64_t table[DOZHUMEK_TABLE_WORDS(DOZHUMEK_PARTS)];
static uint64_t state[DOZHUMEK_STATE_WORDS(DOZHUMEK_PARTS)], next[DOZHUMEK_STATE_WORDS(DOZHUMEK_PARTS)];
static uint64_t out[DOZHUMEK_ADVANCE_OUT + 1], outcome[DOZHUMEK_ADVANCE_OUT];
static uint8_t buffer[DOZHUMEK_SAVE_MOST];
static size_t parts;

#define WORDS(array) (sizeof(array) / sizeof *(array))
_Static_assert(
    DOZHUMEK_SAVE_BYTES(DOZHUMEK_PARTS) == DOZHUMEK_SAVE_MOST, "any table's bytes are those of the most parts");
_Static_assert(DOZHUMEK_TABLE_WORDS(32) == 578 && DOZHUMEK_STATE_WORDS(32) == 290, "the words of the most parts");

// Fills words.
static void fill(uint64_t *words, size_t size) {
    for (size_t i = 0; i < size; i++) words[i] = FILL;
}

// How many words from a place on are not as they were filled.
static uint64_t written(const uint64_t *words, size_t from, size_t size) {
    uint64_t others = 0;
    for (size_t i = from; i < size; i++) others += words[i] != FILL;
    return others;
}

// The word of a part in the table.
static uint64_t fixed(size_t part, size_t field) {
    return table[DOZHUMEK_TABLE_AT(part, field)];
}

// The word of a part in the state.
static uint64_t moved(size_t part, size_t field) {
    return state[DOZHUMEK_STATE_AT(part, field)];
}

// Loads the stream, of which a table of so many parts is due, into as many words as those need.
static void load(size_t due) {
    parts = due;
    fill(table, WORDS(table)), fill(state, WORDS(state)), fill(out, WORDS(out));
    uint64_t number = dozhumek_load(stream, length, table, DOZHUMEK_TABLE_WORDS(parts), state,
        DOZHUMEK_STATE_WORDS(parts), out, DOZHUMEK_LOAD_OUT);
    check("the number of a load", number, DOZHUMEK_NOT_REFUSED);
    check("the first word of a load", out[DOZHUMEK_OUT_NUMBER], DOZHUMEK_NOT_REFUSED);
    check("the position of a load", out[DOZHUMEK_OUT_POSITION], length);
    check("words behind a load's answer", written(out, DOZHUMEK_LOAD_OUT, WORDS(out)), 0);
    check("words behind the table", written(table, DOZHUMEK_TABLE_WORDS(parts), WORDS(table)), 0);
    check("words behind the state", written(state, DOZHUMEK_STATE_WORDS(parts), WORDS(state)), 0);
    check("the count", table[DOZHUMEK_TABLE_COUNT], parts);
}

// One advance, whose state is taken up where it is committed. The number.
static uint64_t advance(uint64_t wanted) {
    size_t words = DOZHUMEK_STATE_WORDS(parts);
    fill(out, WORDS(out)), fill(next, WORDS(next));
    uint64_t number = dozhumek_advance(
        table, DOZHUMEK_TABLE_WORDS(parts), state, words, wanted, next, words, out, DOZHUMEK_ADVANCE_OUT);
    check("the first word of an advance", out[DOZHUMEK_OUT_NUMBER], number);
    check("words behind an advance's answer", written(out, DOZHUMEK_ADVANCE_OUT, WORDS(out)), 0);
    check("words behind the new state", written(next, words, WORDS(next)), 0);
    memcpy(outcome, out, sizeof outcome);
    if (number == DOZHUMEK_NOT_REFUSED) memcpy(state, next, sizeof *state * words);
    return number;
}

// An advance that is committed with these counts, at this point; the preview before it answers the same and keeps the
// state.
static void goes(uint64_t wanted, uint64_t t, uint64_t n, uint64_t step, uint64_t rounds, uint64_t revisions) {
    static uint64_t old[WORDS(state)], ahead[WORDS(state)], told[DOZHUMEK_PREVIEW_OUT];
    size_t words = DOZHUMEK_STATE_WORDS(parts);
    memcpy(old, state, sizeof old);
    uint64_t number = dozhumek_preview(
        table, DOZHUMEK_TABLE_WORDS(parts), state, words, wanted, ahead, words, told, DOZHUMEK_PREVIEW_OUT);
    check("the number of a preview", number, DOZHUMEK_NOT_REFUSED);
    check("whether a preview alters the state", memcmp(old, state, sizeof old) != 0, 0);
    check("the number of an advance", advance(wanted), DOZHUMEK_NOT_REFUSED);
    check("whether a preview's answer is another", memcmp(told, outcome, sizeof told) != 0, 0);
    check("whether a preview's state is another", memcmp(ahead, state, sizeof *state * words) != 0, 0);
    check("t", state[DOZHUMEK_STATE_T], t), check("n", state[DOZHUMEK_STATE_N], n);
    check("the step", outcome[DOZHUMEK_OUT_STEP], step), check("the rounds", outcome[DOZHUMEK_OUT_ROUNDS], rounds);
    check("the revisions", outcome[DOZHUMEK_OUT_REVISIONS], revisions);
    check("whether the step is above the ceiling", outcome[DOZHUMEK_OUT_CEILING] < step, 0);
}

// An advance and a preview that are refused with a number: the state is kept, and a preview leaves it again.
static void bars(const char *what, uint64_t wanted, uint64_t due) {
    static uint64_t old[WORDS(state)], told[DOZHUMEK_PREVIEW_OUT];
    size_t words = DOZHUMEK_STATE_WORDS(parts);
    memcpy(old, state, sizeof old), fill(next, WORDS(next));
    uint64_t number = dozhumek_preview(
        table, DOZHUMEK_TABLE_WORDS(parts), state, words, wanted, next, words, told, DOZHUMEK_PREVIEW_OUT);
    check(what, number, due);
    check("whether a refused preview leaves another state", memcmp(next, old, sizeof *old * words) != 0, 0);
    check(what, advance(wanted), due);
    check("whether a refused advance alters the state", memcmp(old, state, sizeof old) != 0, 0);
    check("whether a preview's answer is another", memcmp(told, outcome, sizeof told) != 0, 0);
}

// The model of the crossing by the header's places: of the table, and of the fresh state.
static void crossing_read(void) {
    check("the magnitude", table[DOZHUMEK_TABLE_MAGNITUDE], 0);
    check("kind 0", fixed(0, DOZHUMEK_TABLE_KIND), DOZHUMEK_KIND_CONSTANT);
    check("a of 0", fixed(0, DOZHUMEK_TABLE_A), 2);
    check("kind 1", fixed(1, DOZHUMEK_TABLE_KIND), DOZHUMEK_KIND_INTEGRATOR);
    check("a of 1", fixed(1, DOZHUMEK_TABLE_A), (uint64_t)-7), check("b of 1", fixed(1, DOZHUMEK_TABLE_B), 0);
    check("kind 2", fixed(2, DOZHUMEK_TABLE_KIND), DOZHUMEK_KIND_DETECTOR);
    check("p of 2", fixed(2, DOZHUMEK_TABLE_P), 1);
    check("the preference of 2", fixed(2, DOZHUMEK_TABLE_PREFERENCE), DOZHUMEK_NO_PREFERENCE);
    check("port 0 of 0", fixed(0, DOZHUMEK_TABLE_PORT_0), DOZHUMEK_UNWIRED);
    check("port 0 of 2", fixed(2, DOZHUMEK_TABLE_PORT_0), DOZHUMEK_WIRED_FROM(1));
    check("port 1 of 2", fixed(2, DOZHUMEK_TABLE_PORT_1), DOZHUMEK_UNWIRED);
    check("the ratio of 2", fixed(2, DOZHUMEK_TABLE_RATIO), 1);
    for (size_t i = 0; i < parts; i++) check("a place of the order", fixed(i, DOZHUMEK_TABLE_ORDER), i);
    check("the output of 1", moved(1, DOZHUMEK_STATE_OUTPUT), DOZHUMEK_SIGNAL_PRESENT);
    check("the output's value of 1", moved(1, DOZHUMEK_STATE_OUTPUT_VALUE), (uint64_t)-7);
    check("the output of 2", moved(2, DOZHUMEK_STATE_OUTPUT), DOZHUMEK_SIGNAL_ABSENT);
    check("the side of 2", moved(2, DOZHUMEK_STATE_SIDE), DOZHUMEK_SIDE_NEGATIVE);
    check("the side of 1", moved(1, DOZHUMEK_STATE_SIDE), DOZHUMEK_SIDE_UNSET);
    check("the mark of 2", moved(2, DOZHUMEK_STATE_MARK), DOZHUMEK_MARK_CLEAR);
}

// The crossing played: trials are dropped, and the detector has a mark and then shows it.
static void crossing_played(void) {
    crossing(), load(3), crossing_read();
    goes(8, 2, 0, 2, 3, 2), goes(8, 3, 0, 1, 4, 3);
    check("the held number of 1", moved(1, DOZHUMEK_STATE_HELD), (uint64_t)-1);
    goes(8, 4, 0, 1, 4, 3);
    check("the side of 2", moved(2, DOZHUMEK_STATE_SIDE), DOZHUMEK_SIDE_POSITIVE);
    check("the mark of 2", moved(2, DOZHUMEK_STATE_MARK), DOZHUMEK_MARK_RISING);
    goes(8, 4, 1, 0, 2, 0);
    check("the output of 2", moved(2, DOZHUMEK_STATE_OUTPUT), DOZHUMEK_SIGNAL_PRESENT);
    check("the output's value of 2", moved(2, DOZHUMEK_STATE_OUTPUT_VALUE), 1);
    check("the mark of 2", moved(2, DOZHUMEK_STATE_MARK), DOZHUMEK_MARK_CLEAR);
    check("the local count of 1", moved(1, DOZHUMEK_STATE_LOCAL), 4);
}

// The mark of a number that falls, and a held signal.
static void others_played(void) {
    begin(0), plain(DOZHUMEK_KIND_CONSTANT, -3, 0, 0), plain(DOZHUMEK_KIND_INTEGRATOR, 2, 0, 0);
    plain(DOZHUMEK_KIND_DETECTOR, 0, 0, 1), plain(DOZHUMEK_KIND_HOLD, 0, 0, 0);
    wire(0, 1, 0), wire(1, 2, 0), wire(1, 3, 0), put(DOZHUMEK_COMMAND_END, 1);
    load(4), goes(1, 1, 0, 1, 1, 0);
    check("the mark of 2", moved(2, DOZHUMEK_STATE_MARK), DOZHUMEK_MARK_FALLING);
    check("the held signal of 3", moved(3, DOZHUMEK_STATE_SIGNAL), DOZHUMEK_SIGNAL_PRESENT);
    check("the held signal's value of 3", moved(3, DOZHUMEK_STATE_SIGNAL_VALUE), (uint64_t)-1);
    check("the held signal of 2", moved(2, DOZHUMEK_STATE_SIGNAL), DOZHUMEK_SIGNAL_ABSENT);
}

// The drive and the clapper played: spans, a ratio and a speed; steps that are refused.
static void driven_played(void) {
    driven(), load(3);
    check("the magnitude", table[DOZHUMEK_TABLE_MAGNITUDE], 1);
    check("kind 1", fixed(1, DOZHUMEK_TABLE_KIND), DOZHUMEK_KIND_DRIVE);
    check("the spans of 1", fixed(1, DOZHUMEK_TABLE_SPAN_COUNT), 2);
    check("the first span of 1", fixed(1, DOZHUMEK_TABLE_FIRST_SPAN), 2);
    check("the second span of 1", fixed(1, DOZHUMEK_TABLE_FIRST_SPAN + 1), 5);
    check("kind 2", fixed(2, DOZHUMEK_TABLE_KIND), DOZHUMEK_KIND_CLAPPER);
    check("b of 2", fixed(2, DOZHUMEK_TABLE_B), (uint64_t)-2);
    check("the preference of 2", fixed(2, DOZHUMEK_TABLE_PREFERENCE), 0);
    check("the ratio of 2", fixed(2, DOZHUMEK_TABLE_RATIO), 10);
    goes(9, 5, 0, 5, 2, 0), goes(9, 10, 0, 5, 2, 0);
    check("the local count of 2", moved(2, DOZHUMEK_STATE_LOCAL), 1);
    check("the speed of 2", moved(2, DOZHUMEK_STATE_SPEED), 1);
    check("the position of 2", moved(2, DOZHUMEK_STATE_HELD), 11);
    bars("a step that no span meets", 1, DOZHUMEK_REFUSED_NO_STEP_ACCEPTED);
    bars("a wanted step of 0", 0, DOZHUMEK_REFUSED_WANTED_OUT_OF_RANGE);
    bars("a wanted step above the most", DOZHUMEK_MOST_WANTED + 1, DOZHUMEK_REFUSED_WANTED_OUT_OF_RANGE);
}

// A save into a buffer of every sort: the bytes are those of the stream.
static void saved(void) {
    driven(), load(3), memset(buffer, FILL, sizeof buffer);
    const size_t words = DOZHUMEK_TABLE_WORDS(parts), own = DOZHUMEK_STATE_WORDS(parts);
    for (size_t room = 0; room < length; room += length - 1) {
        fill(out, WORDS(out));
        uint64_t number = dozhumek_save(table, words, state, own, buffer, room, out, DOZHUMEK_SAVE_OUT);
        check("a save into a short buffer", number, DOZHUMEK_REFUSED_TOO_SHORT);
        check("the length that it needs", out[DOZHUMEK_OUT_LENGTH], length);
        for (size_t i = 0; i < room; i++) check("a byte of a short buffer", buffer[i], FILL);
    }
    check("a save", dozhumek_save(table, words, state, own, buffer, sizeof buffer, out, DOZHUMEK_SAVE_OUT), 0);
    check("the length of a save", out[DOZHUMEK_OUT_LENGTH], length);
    check("whether the saved bytes are others", memcmp(buffer, stream, length) != 0, 0);
    check("the byte behind a save", buffer[length], FILL);
    check("words behind a save's answer", written(out, DOZHUMEK_SAVE_OUT, WORDS(out)), 0);
}

// The number of a sheet of the last outcome, of these parts, into so many bytes.
static uint64_t sheet(uint64_t first, uint64_t third, size_t room) {
    fill(out, WORDS(out));
    uint64_t number = dozhumek_sheet(table, DOZHUMEK_TABLE_WORDS(parts), state, DOZHUMEK_STATE_WORDS(parts), outcome,
        WORDS(outcome), first, 1, third, buffer, room, out, DOZHUMEK_SHEET_OUT);
    check("the first word of a sheet", out[DOZHUMEK_OUT_NUMBER], number);
    check("words behind a sheet's answer", written(out, DOZHUMEK_SHEET_OUT, WORDS(out)), 0);
    return number;
}

// Sheets of a committed answer, of a refused one, and those that cannot be printed.
static void printed(void) {
    static const char line[] = "                  2   0          2    3  2           2          -3           -\n";
    crossing(), load(3), goes(8, 2, 0, 2, 3, 2), memset(buffer, FILL, sizeof buffer);
    check("the length of the line that is due", sizeof line - 1, DOZHUMEK_SHEET_LINE);
    check("a sheet", sheet(0, 2, DOZHUMEK_SHEET_LINE), DOZHUMEK_NOT_REFUSED);
    check("the length of a sheet", out[DOZHUMEK_OUT_LENGTH], DOZHUMEK_SHEET_LINE);
    check("whether the line is another", memcmp(buffer, line, DOZHUMEK_SHEET_LINE) != 0, 0);
    check("the byte behind a line", buffer[DOZHUMEK_SHEET_LINE], FILL);
    check("a sheet into a short buffer", sheet(0, 2, DOZHUMEK_SHEET_LINE - 1), DOZHUMEK_REFUSED_TOO_SHORT);
    check("the length of a short sheet", out[DOZHUMEK_OUT_LENGTH], DOZHUMEK_SHEET_LINE);
    check("a sheet of a part that is not there", sheet(0, 3, sizeof buffer), DOZHUMEK_REFUSED_NOT_PRINTABLE);
    check("the length of no sheet", out[DOZHUMEK_OUT_LENGTH], 0);
    outcome[DOZHUMEK_OUT_STEP] = UINT64_C(10000000000);
    check("a sheet of a step too wide", sheet(0, 2, sizeof buffer), DOZHUMEK_REFUSED_NOT_PRINTABLE);
    outcome[DOZHUMEK_OUT_NUMBER] = DOZHUMEK_REFUSED_NO_STEP_ACCEPTED;
    check("a sheet of a refused answer", sheet(0, 2, sizeof buffer), DOZHUMEK_NOT_REFUSED);
    check("whether the line of a refused answer is another", memcmp(buffer, "refused 22 ", 11) != 0, 0);
}

// A load of the stream that is refused with a number at a position, and keeps all words.
static void refuses(const char *what, uint64_t due, size_t position) {
    fill(table, WORDS(table)), fill(state, WORDS(state));
    check(what, dozhumek_load(stream, length, table, WORDS(table), state, WORDS(state), out, DOZHUMEK_LOAD_OUT), due);
    check(what, out[DOZHUMEK_OUT_NUMBER], due), check(what, out[DOZHUMEK_OUT_POSITION], position);
    check("words of a refused load", written(table, 0, WORDS(table)) + written(state, 0, WORDS(state)), 0);
}

// Ends the stream with a command at fault, whose position is given, and End after it.
static void refuses_at(const char *what, uint64_t due, size_t position) {
    put(DOZHUMEK_COMMAND_END, 1), refuses(what, due, position);
}

// Loads that are refused by a command.
static void commands_refused(void) {
    length = 0, refuses("no stream", DOZHUMEK_REFUSED_CUT, 0);
    crossing(), length -= 1, refuses("a stream without End", DOZHUMEK_REFUSED_CUT, length);
    begin(0), put(7, 1), refuses_at("command 7", DOZHUMEK_REFUSED_UNKNOWN_COMMAND, 2);
    begin(0), put(DOZHUMEK_COMMAND_WANTED, 1), refuses_at("a wanted step in a table", DOZHUMEK_REFUSED_OUT_OF_PLACE, 2);
    begin(0), plain(13, 0, 0, 0), refuses_at("kind 13", DOZHUMEK_REFUSED_OUT_OF_RANGE, 2);
    begin(0);
    for (int i = 0; i <= DOZHUMEK_PARTS; i++) plain(DOZHUMEK_KIND_CONSTANT, 1, 0, 0);
    refuses_at("a part too many", DOZHUMEK_REFUSED_TOO_MANY, length - 15);
    begin(0), plain(DOZHUMEK_KIND_DRIVE, 0, 0, 0);
    for (int i = 0; i <= DOZHUMEK_SPANS; i++) span(i + 1);
    refuses_at("a span too many", DOZHUMEK_REFUSED_TOO_MANY, length - 5);
    begin(0), plain(DOZHUMEK_KIND_DRIVE, 0, 0, 0), span(2), span(2);
    refuses_at("a span that does not rise", DOZHUMEK_REFUSED_SPAN_NOT_RISING, length - 5);
    begin(0), plain(DOZHUMEK_KIND_GAIN, 2, 0, 0), wire(1, 0, 0);
    refuses_at("a source that is not there", DOZHUMEK_REFUSED_NOT_THERE, length - 4);
    begin(0), plain(DOZHUMEK_KIND_DELAY, 0, 0, 0), wire(0, 0, 0), wire(0, 0, 0);
    refuses_at("a port wired twice", DOZHUMEK_REFUSED_ALREADY_WIRED, length - 4);
    begin(0), plain(DOZHUMEK_KIND_GAIN, 2, 0, 0), wire(0, 0, 0), refuses_at("a loop", DOZHUMEK_REFUSED_LOOP, length);
    begin(15), put_part(DOZHUMEK_KIND_PULSE, 0, 1, 0, 1000000000);
    refuses_at("a period above the last tick", DOZHUMEK_REFUSED_PERIOD_TOO_LONG, length);
    begin(0), refuses_at("no parts", DOZHUMEK_REFUSED_NO_PARTS, 2);
}

// Loads and advances with too few words lent for what they write.
static void too_short(void) {
    crossing(), load(3);
    const size_t words = DOZHUMEK_TABLE_WORDS(parts), own = DOZHUMEK_STATE_WORDS(parts);
    uint64_t number = dozhumek_load(stream, length, table, words - 1, next, own, out, DOZHUMEK_LOAD_OUT);
    check("a load into a short table", number, DOZHUMEK_REFUSED_TOO_SHORT);
    check("the position of a short load", out[DOZHUMEK_OUT_POSITION], length);
    number = dozhumek_load(stream, length, table, words, next, own - 1, out, DOZHUMEK_LOAD_OUT);
    check("a load into a short state", number, DOZHUMEK_REFUSED_TOO_SHORT);
    number = dozhumek_advance(table, words, state, own, 8, next, own - 1, out, DOZHUMEK_ADVANCE_OUT);
    check("an advance into a short state", number, DOZHUMEK_REFUSED_TOO_SHORT);
}

// The calls by room for their answer: what they are lent for writing apart from `out`, how much of it, and what they
// are handed.
static struct lent {
    uint64_t table[WORDS(table)], state[WORDS(state)], next[WORDS(next)];
    uint8_t buffer[DOZHUMEK_SAVE_MOST];
} lent, whole;
static size_t table_room, next_room, buffer_room, outcome_words;
static uint64_t wanted, third;

// A load of the stream.
static uint64_t load_into(size_t room) {
    return dozhumek_load(stream, length, lent.table, table_room, lent.state, WORDS(lent.state), out, room);
}

// An advance of the model.
static uint64_t advance_into(size_t room) {
    return dozhumek_advance(table, DOZHUMEK_TABLE_WORDS(parts), state, DOZHUMEK_STATE_WORDS(parts), wanted, lent.next,
        next_room, out, room);
}

// A preview of it.
static uint64_t preview_into(size_t room) {
    return dozhumek_preview(table, DOZHUMEK_TABLE_WORDS(parts), state, DOZHUMEK_STATE_WORDS(parts), wanted, lent.next,
        next_room, out, room);
}

// A save of its table.
static uint64_t save_into(size_t room) {
    return dozhumek_save(table, DOZHUMEK_TABLE_WORDS(parts), state, DOZHUMEK_STATE_WORDS(parts), lent.buffer,
        buffer_room, out, room);
}

// A sheet of the last outcome.
static uint64_t sheet_into(size_t room) {
    return dozhumek_sheet(table, DOZHUMEK_TABLE_WORDS(parts), state, DOZHUMEK_STATE_WORDS(parts), outcome,
        outcome_words, 0, 1, third, lent.buffer, buffer_room, out, room);
}

// A call with every room for its answer, from one word more than it has down to none. It has so many words, of which
// the first two are given. Whatever the room is, the call answers its number, writes the words that fit, and leaves all
// else alike.
static void answers(
    const char *what, uint64_t (*call)(size_t room), size_t count, uint64_t number, uint64_t second) {
    uint64_t words[WORDS(out)] = {0};
    for (size_t room = count + 2; room-- > 0;) {
        fill(out, WORDS(out)), memset(&lent, FILL, sizeof lent);
        check(what, call(room), number);
        if (room > count) memcpy(words, out, sizeof words), memcpy(&whole, &lent, sizeof whole);
        for (size_t i = 0; i < WORDS(out); i++) check(what, out[i], i < room && i < count ? words[i] : FILL);
        check("whether less room for an answer leaves something else", memcmp(&lent, &whole, sizeof whole) != 0, 0);
    }
    check(what, words[0], number), check(what, words[1], second);
}

// Loads by room for their answer: accepted, into a short table, cut, and refused at a command.
static void loads_answered(void) {
    crossing(), table_room = WORDS(lent.table);
    answers("a load", load_into, DOZHUMEK_LOAD_OUT, DOZHUMEK_NOT_REFUSED, length);
    table_room = DOZHUMEK_TABLE_WORDS(3) - 1;
    answers("a load into a short table", load_into, DOZHUMEK_LOAD_OUT, DOZHUMEK_REFUSED_TOO_SHORT, length);
    length -= 1, answers("a load of a cut stream", load_into, DOZHUMEK_LOAD_OUT, DOZHUMEK_REFUSED_CUT, length);
    begin(0), plain(13, 0, 0, 0);
    answers("a load of kind 13", load_into, DOZHUMEK_LOAD_OUT, DOZHUMEK_REFUSED_OUT_OF_RANGE, 2);
}

// An advance, or a preview, by room for its answer: committed, refused by the search, into a short state, and barred.
static void steps_answered(const char *what, uint64_t (*call)(size_t room)) {
    driven(), load(3), next_room = WORDS(lent.next), wanted = 9;
    answers(what, call, DOZHUMEK_ADVANCE_OUT, DOZHUMEK_NOT_REFUSED, 5);
    wanted = 1, answers(what, call, DOZHUMEK_ADVANCE_OUT, DOZHUMEK_REFUSED_NO_STEP_ACCEPTED, 0);
    next_room = DOZHUMEK_STATE_WORDS(3) - 1, wanted = 9;
    answers(what, call, DOZHUMEK_ADVANCE_OUT, DOZHUMEK_REFUSED_TOO_SHORT, 0);
    wanted = 0, answers(what, call, DOZHUMEK_ADVANCE_OUT, DOZHUMEK_REFUSED_WANTED_OUT_OF_RANGE, 0);
    table[DOZHUMEK_TABLE_AT(1, DOZHUMEK_TABLE_KIND)] = DOZHUMEK_KIND_CLAPPER + 1;
    answers(what, call, DOZHUMEK_ADVANCE_OUT, DOZHUMEK_REFUSED_NOT_SOUND, 0);
}

// A save by room for its answer: made, into a short buffer, and of words that spell no model.
static void saves_answered(void) {
    driven(), load(3), buffer_room = sizeof lent.buffer;
    answers("a save", save_into, DOZHUMEK_SAVE_OUT, DOZHUMEK_NOT_REFUSED, length);
    buffer_room = length - 1;
    answers("a save into a short buffer", save_into, DOZHUMEK_SAVE_OUT, DOZHUMEK_REFUSED_TOO_SHORT, length);
    table[DOZHUMEK_TABLE_COUNT] = DOZHUMEK_PARTS + 1;
    answers("a save of too many parts", save_into, DOZHUMEK_SAVE_OUT, DOZHUMEK_REFUSED_NOT_SOUND, 0);
}

// A sheet by room for its answer: made, into a short buffer, of a part that is not there, and of words that spell no
// model. Fewer words than an outcome has are refused so too, before anything else: without room, and of any parts.
static void sheets_answered(void) {
    const uint64_t line = DOZHUMEK_SHEET_LINE;
    crossing(), load(3), goes(8, 2, 0, 2, 3, 2);
    buffer_room = sizeof lent.buffer, outcome_words = WORDS(outcome), third = 2;
    answers("a sheet", sheet_into, DOZHUMEK_SHEET_OUT, DOZHUMEK_NOT_REFUSED, line);
    buffer_room = DOZHUMEK_SHEET_LINE - 1;
    answers("a sheet into a short buffer", sheet_into, DOZHUMEK_SHEET_OUT, DOZHUMEK_REFUSED_TOO_SHORT, line);
    third = 3;
    answers("a sheet of part 3", sheet_into, DOZHUMEK_SHEET_OUT, DOZHUMEK_REFUSED_NOT_PRINTABLE, 0);
    for (outcome_words = 0; outcome_words < WORDS(outcome); outcome_words++)
        answers("a sheet of a short outcome", sheet_into, DOZHUMEK_SHEET_OUT, DOZHUMEK_REFUSED_NOT_SOUND, 0);
    check("bytes of a sheet of a short outcome", lent.buffer[0], FILL);
    table[DOZHUMEK_TABLE_COUNT] = DOZHUMEK_PARTS + 1;
    answers("a sheet of too many parts", sheet_into, DOZHUMEK_SHEET_OUT, DOZHUMEK_REFUSED_NOT_SOUND, 0);
}

// Every call of the words as they are is refused as not sound, and nothing but its answer is written.
static void malformed(const char *what, size_t words) {
    const size_t own = DOZHUMEK_STATE_WORDS(parts);
    fill(next, WORDS(next)), memset(buffer, FILL, sizeof buffer);
    uint64_t number = dozhumek_advance(table, words, state, own, 8, next, own, out, DOZHUMEK_ADVANCE_OUT);
    check(what, number, DOZHUMEK_REFUSED_NOT_SOUND);
    number = dozhumek_preview(table, words, state, own, 8, next, own, out, DOZHUMEK_PREVIEW_OUT);
    check(what, number, DOZHUMEK_REFUSED_NOT_SOUND);
    number = dozhumek_save(table, words, state, own, buffer, sizeof buffer, out, DOZHUMEK_SAVE_OUT);
    check(what, number, DOZHUMEK_REFUSED_NOT_SOUND), check(what, out[DOZHUMEK_OUT_LENGTH], 0);
    number = dozhumek_sheet(
        table, words, state, own, outcome, WORDS(outcome), 0, 1, 2, buffer, sizeof buffer, out, DOZHUMEK_SHEET_OUT);
    check(what, number, DOZHUMEK_REFUSED_NOT_SOUND), check(what, out[DOZHUMEK_OUT_LENGTH], 0);
    check(what, written(next, 0, WORDS(next)), 0), check(what, buffer[0], FILL);
}

// Words that spell no model: too few, and with a code that no case has.
static void words_malformed(void) {
    crossing(), load(3);
    const size_t words = DOZHUMEK_TABLE_WORDS(parts);
    malformed("a table of too few words", words - 1);
    table[DOZHUMEK_TABLE_AT(1, DOZHUMEK_TABLE_KIND)] = DOZHUMEK_KIND_CLAPPER + 1, malformed("an unknown kind", words);
    load(3), table[DOZHUMEK_TABLE_COUNT] = DOZHUMEK_PARTS + 1, malformed("too many parts", words);
    load(3), state[DOZHUMEK_STATE_AT(2, DOZHUMEK_STATE_SIDE)] = DOZHUMEK_SIDE_POSITIVE + 1;
    malformed("an unknown side", words);
    load(3), state[DOZHUMEK_STATE_AT(2, DOZHUMEK_STATE_MARK)] = DOZHUMEK_MARK_FALLING + 1;
    malformed("an unknown mark", words);
    load(3), state[DOZHUMEK_STATE_AT(1, DOZHUMEK_STATE_OUTPUT)] = DOZHUMEK_SIGNAL_PRESENT + 1;
    malformed("an unknown signal", words);
    // Spelled, and not sound: the old state is previewed again.
    load(3), state[DOZHUMEK_STATE_N] = DOZHUMEK_LAST_MICROSTEP + 1;
    bars("a microstep above the last", 8, DOZHUMEK_REFUSED_NOT_SOUND);
}

// Sound models at the last microstep and at the last tick.
static void last_points(void) {
    begin(0), plain(DOZHUMEK_KIND_CONSTANT, 1, 0, 0), plain(DOZHUMEK_KIND_DELAY, 0, 0, 0), wire(0, 1, 0);
    put(DOZHUMEK_COMMAND_END, 1), load(2), state[DOZHUMEK_STATE_N] = DOZHUMEK_LAST_MICROSTEP;
    bars("a part due at the last microstep", 8, DOZHUMEK_REFUSED_DUE_AT_LAST_MICROSTEP);
    begin(0), plain(DOZHUMEK_KIND_CONSTANT, 1, 0, 0), put(DOZHUMEK_COMMAND_END, 1), load(1);
    const uint64_t t = DOZHUMEK_LAST_TICK - DOZHUMEK_MOST_WANTED;
    state[DOZHUMEK_STATE_T] = state[DOZHUMEK_STATE_AT(0, DOZHUMEK_STATE_LOCAL)] = t - 1;
    goes(DOZHUMEK_MOST_WANTED, DOZHUMEK_LAST_TICK - 1, 0, DOZHUMEK_MOST_WANTED, 1, 0);
    bars("a step past the last tick", 2, DOZHUMEK_REFUSED_PAST_LAST_TICK);
    goes(1, DOZHUMEK_LAST_TICK, 0, 1, 1, 0);
}

// Makes all checks.
int main(void) {
    crossing_played(), others_played(), driven_played();
    saved(), printed();
    commands_refused(), too_short(), words_malformed(), last_points();
    loads_answered(), steps_answered("an advance", advance_into), steps_answered("a preview", preview_into);
    saves_answered(), sheets_answered();
    if (differences > 0) {
        printf("header: failed: %d of %d checks in C\n", differences, checks);
        return 1;
    }
    printf("%d\n", checks);
    return 0;
}
