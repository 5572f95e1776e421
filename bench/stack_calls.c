// Measures the stack of the calls of the static library (target/staticlib/libboundary.a). Each call is made on a
// painted stack, for many tables, states and wanted steps. The deepest word that any of them wrote is printed.
// bench/stack builds and runs this program; docs/MEMORY.md says what the figures mean.
//
//   stack_calls                 prints the counts of parts, and a line for each call: its name, the bytes at each count
//   stack_calls streams FOLDER  writes the tables, each with a score after it, to FOLDER, as COUNT-NUMBER.bin
//
// Status 1 if a table is not accepted, or some number that a call can answer was answered by none.
#include "../include/dozhumek.h"
#include "stack_painted.h"
#include <stdbool.h>
#include <string.h>

// The three counts of parts at which the calls are measured; one part more than the most is refused with 6.
static const size_t counts[] = {2, 20, DOZHUMEK_PARTS};
#define COUNTS (sizeof counts / sizeof *counts)

// A call that does nothing, to see what the measuring itself writes.
static uint64_t empty(void) {
    return 0;
}

enum { LOAD, ADVANCE, PREVIEW, SAVE, SHEET, EMPTY, CALLS };
static const struct {
    const char *name;
    void *function;
    size_t pushed;
} calls[CALLS] = {
    {"load", (void *)dozhumek_load, 2},
    {"advance", (void *)dozhumek_advance, 3},
    {"preview", (void *)dozhumek_preview, 3},
    {"save", (void *)dozhumek_save, 2},
    {"sheet", (void *)dozhumek_sheet, 7},
    {"empty", (void *)empty, 0},
};

// The call that is made on the painted stack, the numbers that each call answered, whether a trial was dropped, and the
// stack on which the other calls are made.
static int measured;
static uint64_t seen[CALLS];
static bool dropped;
static uint64_t other_stack[1 << 16];

static void fail(const char *what, size_t parts) {
    printf("stack: failed: %s, %zu parts\n", what, parts);
    exit(1);
}

static uint64_t make(int call, const uint64_t *words) {
    // Of the others only a load and an advance lead on to another model.
    if (call != measured && call != LOAD && call != ADVANCE) return 0;
    void *top = call == measured ? (void *)stack_top : (void *)(other_stack + sizeof other_stack / sizeof *other_stack);
    uint64_t number = call_at(top, calls[call].function, words, calls[call].pushed);
    if (number < 64) seen[call] |= (uint64_t)1 << number;
    return number;
}

// The streams.

static uint8_t stream[65536];
static size_t length;

static void put(uint64_t number, int bytes) {
    for (; bytes > 0; bytes--, number >>= 8) stream[length++] = (uint8_t)number;
}

static void put_part(int kind, int preference, int64_t a, int64_t b, uint32_t p) {
    put(2, 1), put((uint64_t)kind, 1), put((uint64_t)preference, 1);
    put((uint64_t)a, 4), put((uint64_t)b, 4), put(p, 4);
}

static void put_wire(size_t source, size_t part, int port) {
    put(4, 1), put(source, 1), put(part, 1), put((uint64_t)port, 1);
}

static void put_span(uint32_t span) {
    put(3, 1), put(span, 4);
}

static void put_spans(void) {
    static const uint32_t spans[DOZHUMEK_SPANS] = {1, 2, 3, 5, 8, 13, 200, 1000000000};
    for (int i = 0; i < DOZHUMEK_SPANS; i++) put_span(spans[i]);
}

static const int ports[13] = {0, 1, 2, 0, 0, 1, 1, 2, 1, 1, 2, 1, 1};

static void put_kind(int kind, size_t i) {
    static const int preferences[3] = {255, 0, 2};
    static const bool has_a[13] = {true, true, false, true, true, false, true, true, false, false, false, true, true};
    bool has_b = kind == 3 || kind == 12, has_p = kind == 3 || kind == 4 || kind == 8;
    int64_t sign = i % 2 == 0 ? 1 : -1;
    put_part(kind, preferences[i % 3], has_a[kind] ? sign * (i % 4 == 0 ? 1000000000 : (int64_t)i + 3) : 0,
        has_b ? -sign * 7 : 0, has_p ? (uint32_t)i + 1 : 0);
    if (kind == 11) put_spans();
}

// The tables: thirteen of every kind by turns, each begun with another, then drives, adders from the last part down,
// falling numbers that detectors look at, a clapper that strikes, delays of a constant, and drives of one long span.
#define TABLES 19

static int kind_in(size_t number, size_t i, size_t parts) {
    static const int falling[3] = {0, 6, 8}, struck[2] = {12, 8};
    if (number < 13) return (int)((i + number) % 13);
    if (number == 14) return i + 1 < parts ? 2 : 0;
    if (number == 15) return falling[i % 3];
    if (number == 16) return struck[i % 2];
    if (number == 17) return i == 0 ? 0 : 5;
    return 11;
}

static void put_table(size_t number, size_t parts) {
    length = 0;
    put(1, 1), put(number % 16, 1);
    for (size_t i = 0; i < parts; i++) {
        int kind = kind_in(number, i, parts);
        if (number == 15 || number == 16)
            put_part(kind, 255, kind == 0 ? -3 : kind == 8 ? 0 : 1000, kind == 12 ? -3 : 0, kind == 8 ? 1 : 0);
        else if (number == 18)
            put_part(kind, 255, 0, 0, 0), put_span(1000);
        else
            put_kind(kind, i);
    }
    for (size_t i = 0; i < parts; i++)
        for (int port = 0; port < ports[kind_in(number, i, parts)]; port++) {
            // From the next part, from the first one, or from one before. The clappers of table 16 fall by their first
            // speed alone.
            if (number == 14)
                put_wire(i + 1, i, port);
            else if (number == 17)
                put_wire(0, i, port);
            else if (i > 0 && !(number == 16 && i % 2 == 0))
                put_wire(i - 1 - (i > 1 ? (size_t)port : 0), i, port);
        }
    put(5, 1);
}

// The words that are lent, with the ends of each slice as long as the parts need.

static uint64_t table[DOZHUMEK_TABLE_WORDS(DOZHUMEK_PARTS)], out[DOZHUMEK_LOAD_OUT], outcome[DOZHUMEK_ADVANCE_OUT];
static uint64_t state[DOZHUMEK_STATE_WORDS(DOZHUMEK_PARTS)], next[DOZHUMEK_STATE_WORDS(DOZHUMEK_PARTS)];
static uint8_t buffer[DOZHUMEK_SAVE_BYTES(DOZHUMEK_PARTS)];

static uint64_t load(size_t bytes, size_t parts) {
    uint64_t words[8] = {(uint64_t)stream, bytes, (uint64_t)table, DOZHUMEK_TABLE_WORDS(parts), (uint64_t)state,
        DOZHUMEK_STATE_WORDS(parts), (uint64_t)out, DOZHUMEK_LOAD_OUT};
    return make(LOAD, words);
}

static uint64_t go(int call, uint64_t wanted, size_t parts, size_t room) {
    uint64_t words[9] = {(uint64_t)table, DOZHUMEK_TABLE_WORDS(parts), (uint64_t)state, DOZHUMEK_STATE_WORDS(parts),
        wanted, (uint64_t)next, room, (uint64_t)outcome, DOZHUMEK_ADVANCE_OUT};
    uint64_t number = make(call, words);
    if (outcome[DOZHUMEK_OUT_REVISIONS] > 0) dropped = true;
    return number;
}

static uint64_t save(size_t parts, size_t room) {
    uint64_t words[8] = {(uint64_t)table, DOZHUMEK_TABLE_WORDS(parts), (uint64_t)state, DOZHUMEK_STATE_WORDS(parts),
        (uint64_t)buffer, room, (uint64_t)out, DOZHUMEK_SAVE_OUT};
    return make(SAVE, words);
}

static uint64_t sheet(size_t parts, uint64_t third, size_t room) {
    uint64_t words[13] = {(uint64_t)table, DOZHUMEK_TABLE_WORDS(parts), (uint64_t)state, DOZHUMEK_STATE_WORDS(parts),
        (uint64_t)outcome, DOZHUMEK_ADVANCE_OUT, 0, parts / 2, third, (uint64_t)buffer, room, (uint64_t)out,
        DOZHUMEK_SHEET_OUT};
    return make(SHEET, words);
}

static const uint64_t wants[] = {8, 1, 60, 5000, 1000000000, 3, 0, UINT64_MAX, 200, 1};
#define WANTS (sizeof wants / sizeof *wants)

// Sheets of the outcome as it is, and of others: every width, and too wide.
static void sheets(size_t parts) {
    sheet(parts, parts - 1, DOZHUMEK_SHEET_LINE), sheet(parts, parts - 1, DOZHUMEK_SHEET_LINE - 1);
    sheet(parts, parts, DOZHUMEK_SHEET_LINE);
    static const uint64_t others[][DOZHUMEK_ADVANCE_OUT] = {{0, 9999999999, 9999, 99, 1}, {0, 10000000000, 1, 1, 1},
        {0, 1, 10000, 1, 1}, {UINT64_MAX, 1, 1, 1, 1}, {21, 0, UINT64_MAX, UINT64_MAX, 0}};
    for (size_t i = 0; i < sizeof others / sizeof *others; i++) {
        memcpy(outcome, others[i], sizeof outcome);
        sheet(parts, parts - 1, DOZHUMEK_SHEET_LINE);
    }
}

static void play(size_t parts, int turns) {
    const size_t room = DOZHUMEK_STATE_WORDS(parts);
    for (int i = 0; i < turns; i++) {
        uint64_t wanted = wants[(size_t)i % WANTS];
        go(PREVIEW, wanted, parts, room), go(PREVIEW, wanted, parts, room - 1);
        save(parts, DOZHUMEK_SAVE_BYTES(parts)), save(parts, 0);
        go(ADVANCE, wanted, parts, room - 1);
        if (go(ADVANCE, wanted, parts, room) == 0) memcpy(state, next, sizeof state);
        sheets(parts);
    }
}

static void measured_call(size_t parts) {
    if (measured == ADVANCE || measured == PREVIEW) go(measured, 5, parts, DOZHUMEK_STATE_WORDS(parts));
    save(parts, DOZHUMEK_SAVE_BYTES(parts)), sheet(parts, parts - 1, DOZHUMEK_SHEET_LINE);
}

// Every word altered, one at a time: words that spell no model, unsound models, and sound ones that no call led to.
static void alter(uint64_t *words, size_t size, size_t parts) {
    for (size_t i = 0; i < size; i++) {
        uint64_t kept = words[i], tried[] = {0, 1, 2, UINT64_MAX, kept + 1, kept - 1, kept ^ ((uint64_t)1 << 40)};
        for (size_t k = 0; k < sizeof tried / sizeof *tried; k++) {
            words[i] = tried[k];
            outcome[DOZHUMEK_OUT_NUMBER] = 0, outcome[DOZHUMEK_OUT_STEP] = 1, outcome[DOZHUMEK_OUT_ROUNDS] = 1;
            outcome[DOZHUMEK_OUT_REVISIONS] = 0;
            measured_call(parts);
        }
        words[i] = kept;
    }
}

// The model at a tick and a microstep, each part's local count the tick by its ratio.
static void place(uint64_t tick, uint64_t microstep, size_t parts) {
    state[DOZHUMEK_STATE_T] = tick, state[DOZHUMEK_STATE_N] = microstep;
    for (size_t i = 0; i < parts; i++)
        state[DOZHUMEK_STATE_AT(i, DOZHUMEK_STATE_LOCAL)] = tick / table[DOZHUMEK_TABLE_AT(i, DOZHUMEK_TABLE_RATIO)];
}

static void table_played(size_t number, size_t parts) {
    put_table(number, parts);
    if (load(length, parts) != 0) fail("a table is not accepted", parts);
    play(parts, 40);
    place(1000000000000000000 - 1000000000, 0, parts), play(parts, 5);
    place(1000000000000000000 - 999999999, 999, parts), play(parts, 5);
    place(1000000000000000000, 999, parts), play(parts, 5);
    if (measured == LOAD) return;
    alter(table, DOZHUMEK_TABLE_WORDS(parts), parts), alter(state, DOZHUMEK_STATE_WORDS(parts), parts);
}

// The stream cut anywhere, and with any of its bytes altered.
static void loads(size_t number, size_t parts) {
    put_table(number, parts);
    size_t whole = length;
    for (size_t bytes = 0; bytes < whole; bytes++) load(bytes, parts);
    load(whole, parts - 1);
    for (size_t i = 0; i < whole; i++) {
        uint8_t kept = stream[i], tried[] = {0, 1, 2, 3, 4, 5, 6, 7, 11, 255, (uint8_t)(kept + 1)};
        for (size_t k = 0; k < sizeof tried; k++) stream[i] = tried[k], load(whole, parts);
        stream[i] = kept;
    }
}

// Streams that those do not lead to: no parts, a part too many, a span too many, a loop, and a period above 10^18.
static void other_loads(size_t parts) {
    length = 0, put(1, 1), put(0, 1), put(5, 1), load(length, parts);
    length = 0, put(1, 1), put(0, 1);
    for (size_t i = 0; i <= DOZHUMEK_PARTS; i++) put_part(0, 255, 1, 0, 0);
    put(5, 1), load(length, parts);
    length = 0, put(1, 1), put(0, 1), put_part(11, 255, 1, 0, 0), put_spans(), put_span(1000000000), put(5, 1),
    load(length, parts);
    length = 0, put(1, 1), put(0, 1);
    for (size_t i = 0; i < parts; i++) put_part(1, 255, 1, 0, 0);
    for (size_t i = 0; i < parts; i++) put_wire(i, (i + 1) % parts, 0);
    put(5, 1), load(length, parts);
    length = 0, put(1, 1), put(15, 1);
    for (size_t i = 0; i < parts; i++) put_part(4, 0, 1, 0, 1000000000);
    put(5, 1), load(length, parts);
}

static size_t measure(int call, size_t parts) {
    measured = call;
    for (uint64_t *word = stack_low; word < stack_top; word++) *word = PAINT;
    uint64_t none[6] = {0};
    make(EMPTY, none);
    for (size_t number = 0; number < TABLES; number++) {
        if (call != EMPTY) table_played(number, parts);
        if (call == LOAD && number % 3 == 0) loads(number, parts);
    }
    if (call == LOAD) other_loads(parts);
    return depth();
}

// Whether a call answered each of these numbers.
static void answered(int call, const int *numbers, size_t size) {
    for (size_t i = 0; i < size; i++)
        if ((seen[call] >> numbers[i] & 1) == 0) {
            printf("stack: failed: no %s answered %d\n", calls[call].name, numbers[i]);
            exit(1);
        }
}

static void all_answered(void) {
    static const int loaded[] = {0, 1, 2, 3, 5, 6, 7, 8, 9, 10, 11, 12, 25}, gone[] = {0, 20, 21, 22, 23, 24, 25},
                     saved[] = {0, 24, 25}, printed[] = {0, 24, 25, 26};
    answered(LOAD, loaded, 13), answered(ADVANCE, gone, 7), answered(PREVIEW, gone, 7), answered(SAVE, saved, 3),
        answered(SHEET, printed, 4);
    if (!dropped) fail("no trial was dropped", DOZHUMEK_PARTS);
}

static void write_streams(const char *folder) {
    for (size_t c = 0; c < COUNTS; c++)
        for (size_t number = 0; number < TABLES + 2; number++) {
            char name[4096];
            put_table(number % TABLES, counts[c]);
            // The last two: a score that fills what a program reads, and a refused load.
            size_t steps = number == TABLES ? (sizeof stream - length) / 5 : 40;
            for (size_t i = 0; i < steps; i++) put(6, 1), put(wants[i % WANTS], 4);
            if (number == TABLES + 1) length = 7;
            snprintf(name, sizeof name, "%s/%zu-%zu.bin", folder, counts[c], number);
            FILE *file = fopen(name, "wb");
            if (file == NULL || fwrite(stream, 1, length, file) != length || fclose(file) != 0)
                fail("a stream cannot be written", counts[c]);
        }
}

int main(int count, char **words) {
    if (count == 3 && strcmp(words[1], "streams") == 0) {
        write_streams(words[2]);
        return 0;
    }
    paint_all();
    printf("%-10s", "stack");
    for (size_t c = 0; c < COUNTS; c++) printf(" %8zu", counts[c]);
    printf("\n");
    for (int call = 0; call < CALLS; call++) {
        printf("%-10s", calls[call].name);
        for (size_t c = 0; c < COUNTS; c++) printf(" %8zu", measure(call, counts[c]));
        printf("\n");
    }
    all_answered();
    return 0;
}
