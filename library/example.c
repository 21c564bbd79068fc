/* Runs document 01's marked table through the library, the same in edition 2 with a call that fails, and a table whose rules visit
 * more than one expression word; shows operators their panels; holds a supplier's recordings against the run; lists tables as text and
 * reads them back; turns a bus log into events; prints what each call gives and holds it against the documents. Leaves with status 1 at
 * the first difference. */
#include "herringcart.h"

#include <inttypes.h>
#include <stdio.h>
#include <stdlib.h>
#include <string.h>

#define TABLE_WORDS 12
#define STATE_WORDS 4
#define BOUND 3
#define UNTOUCHED UINT32_C(0x55555555)

/* Read-only memory: the calls only read the table. */
static const uint32_t table[TABLE_WORDS] = {
    0x01020100, 0x00010001, 0x00010002, 0x01000000, 0x21000000, 0x10102000,
    0x030A0005, 0x00005000, 0x100000FF, 0x18380002, 0x40000002, 0x00001234,
};

static uint32_t state[STATE_WORDS];

static void expect(const char *what, uint64_t given, uint64_t expected)
{
    if (given != expected) {
        printf("DIFFERS: %s is %" PRIX64 ", the documents have %" PRIX64 "\n", what, given, expected);
        exit(1);
    }
}

static void expect_words(const char *what, const uint32_t *given, const uint32_t *expected, size_t words)
{
    printf("  %s:", what);
    for (size_t i = 0; i < words; i++)
        printf(" %08" PRIX32, given[i]);
    printf("\n");
    for (size_t i = 0; i < words; i++)
        expect(what, given[i], expected[i]);
}

/* What the documents say of one event: its answer, the state after it, the trace words written, and the expression words
 * visited: the rule has one, a condition, and only the request arbitrates its port. */
struct expected {
    const char *what;
    uint32_t event;
    size_t room;
    uint32_t answer;
    uint32_t state[STATE_WORDS];
    size_t count;
    uint32_t trace[BOUND];
    uint32_t visits;
};

static void take(const struct expected *e)
{
    uint32_t trace[BOUND] = {UNTOUCHED, UNTOUCHED, UNTOUCHED}, visits = 99;
    size_t count = 99;
    /* no outcomes: the length is 0, and the address any but null */
    uint32_t answer =
        herringcart_take_event(table, TABLE_WORDS, state, STATE_WORDS, trace, e->room, table, 0, e->event, &count, &visits);
    printf("%s, event %08" PRIX32 ": answer %" PRIu32 ", count %zu, visits %" PRIu32 "\n", e->what, e->event, answer, count, visits);
    expect("answer", answer, e->answer);
    expect("count", count, e->count);
    expect("visits", visits, e->visits);
    expect_words("state", state, e->state, STATE_WORDS);
    expect_words("trace", trace, e->trace, e->count);
    for (size_t i = e->count; i < BOUND; i++)
        expect("a trace word past the count", trace[i], UNTOUCHED);
}

static void check(void)
{
    size_t place = 99;
    uint32_t bound = 99;
    uint32_t reason = herringcart_check_table(table, TABLE_WORDS, &place, &bound);
    printf("check: reason %" PRIu32 ", place %zu, B %" PRIu32 "\n", reason, place, bound);
    expect("reason", reason, HERRINGCART_ACCEPTED);
    expect("place", place, 0);
    expect("B", bound, BOUND);
    expect("state words", herringcart_state_words(table, TABLE_WORDS), STATE_WORDS);

    /* Without its last word the table's length differs; with L1 0 its word 6 breaks its fields. */
    expect("reason", herringcart_check_table(table, TABLE_WORDS - 1, &place, &bound), HERRINGCART_WRONG_LENGTH);
    expect("B of a refused table", bound, 0);
    uint32_t wrong[TABLE_WORDS];
    memcpy(wrong, table, sizeof table);
    wrong[6] = 0x000A0005;
    expect("reason", herringcart_check_table(wrong, TABLE_WORDS, &place, &bound), HERRINGCART_MISFIT);
    expect("place", place, 6);
}

static void fresh(void)
{
    static const uint32_t zero[STATE_WORDS];
    memset(state, 0xAA, sizeof state);
    expect("fresh in three words", herringcart_make_fresh(table, TABLE_WORDS, state, STATE_WORDS - 1),
           HERRINGCART_WRONG_STATE_WORDS);
    expect("a word after a refusal", state[0], 0xAAAAAAAA);
    expect("the state check", herringcart_check_state(table, TABLE_WORDS, state, STATE_WORDS), HERRINGCART_UNFIT_STATE);
    uint32_t answer = herringcart_make_fresh(table, TABLE_WORDS, state, STATE_WORDS);
    printf("fresh: answer %" PRIu32 "\n", answer);
    expect("answer", answer, 0);
    expect_words("state", state, zero, STATE_WORDS);
    expect("the state check", herringcart_check_state(table, TABLE_WORDS, state, STATE_WORDS), 0);
}

/* The inline function makes the document's words, and never cuts a field. */
static void events(void)
{
    expect("a request", herringcart_event(HERRINGCART_MODE_REQUEST, 1, 0, 5), 0x11000500);
    expect("a tick", herringcart_event(HERRINGCART_TICK, 0, 0, 0), 0);
    expect("a bus-off", herringcart_event(HERRINGCART_BUS_OFF, 1, 0, 0), 0x51000000);
    expect("a heard", herringcart_event(HERRINGCART_HEARD, 1, 0, 0), 0x71000000);
    expect("all fields", herringcart_event(HERRINGCART_WAKEUP_CLEAR, 15, 0xAB, 0xCD), 0x6FABCD00);
    static const uint32_t large[][4] = {{16, 0, 0, 0}, {0, 16, 0, 0}, {0, 0, 256, 0}, {0, 0, 0, 256}};
    for (size_t i = 0; i < sizeof large / sizeof *large; i++) {
        uint32_t trace[BOUND] = {0}, visits = 99, word = herringcart_event(large[i][0], large[i][1], large[i][2], large[i][3]);
        size_t count = 99;
        expect("a field too large", word, 0xFFFFFFFF);
        expect("its answer",
               herringcart_take_event(table, TABLE_WORDS, state, STATE_WORDS, trace, BOUND, table, 0, word, &count, &visits),
               HERRINGCART_MALFORMED_EVENT);
        expect("its visits", visits, 0);
    }
}

/* The run played in one call, in room for one event's words and B more: the first event fills three of them, the next are taken, and a
 * refused one ends it. With one word of room less the trace is full behind the first event, and the rest is played from there. */
static void play(void)
{
    static const uint32_t day[] = {0x11000500, 0, 0x51000000, 0, 0, 0, 0x21000500, 0};
    static const uint32_t words[BOUND] = {0xF1000000, 0x41000002, 0x01001234};
    static const uint32_t last[STATE_WORDS] = {0x81400000, 0x80800000, 0x40000000, 0x90080005};
    const size_t length = sizeof day / sizeof *day;
    for (size_t room = 2 * BOUND; room >= 2 * BOUND - 1; room--) {
        uint32_t trace[2 * BOUND];
        size_t taken = 99, count = 99, from = 0;
        uint64_t visits = 99;
        memset(trace, 0x55, sizeof trace);
        expect("fresh", herringcart_make_fresh(table, TABLE_WORDS, state, STATE_WORDS), 0);
        uint32_t end = herringcart_play(table, TABLE_WORDS, state, STATE_WORDS, trace, room, day, length, &taken, &count, &visits);
        printf("play in %zu words: answer %" PRIu32 ", taken %zu, count %zu, visits %" PRIu64 "\n", room, end, taken, count, visits);
        expect_words("trace", trace, words, BOUND);
        expect("count", count, BOUND);
        expect("visits", visits, 1);
        for (size_t i = BOUND; i < 2 * BOUND; i++)
            expect("a trace word past the count", trace[i], UNTOUCHED);
        if (room < 2 * BOUND) {
            expect("answer", end, HERRINGCART_TRACE_FULL);
            expect("taken", taken, 1);
            from = taken;
            end = herringcart_play(table, TABLE_WORDS, state, STATE_WORDS, trace, room, day + from, length - from, &taken, &count,
                                   &visits);
            printf("resumed: answer %" PRIu32 ", taken %zu, count %zu, visits %" PRIu64 "\n", end, taken, count, visits);
            expect("count", count, 0);
            expect("visits", visits, 0);
        }
        expect("answer", end, HERRINGCART_MALFORMED_EVENT);
        expect("the refused event", from + taken, 6);
        expect_words("state", state, last, STATE_WORDS);
    }
}

/* What is lent with the marked request, the answer, and how many of its four trace words are written. */
struct lent {
    const char *what;
    uint32_t outcomes[3];
    size_t words;
    uint32_t answer;
    size_t count;
};

/* The marked table in edition 2 with one more call; the first of the two has abort. */
static void outcomes(void)
{
    enum { WORDS = TABLE_WORDS + 1, ROOM = BOUND + 1 };
    static const uint32_t failing[WORDS] = {
        0x02020100, 0x00010001, 0x00010003, 0x01000000, 0x21000000, 0x10102000, 0x030A0005,
        0x00005000, 0x100000FF, 0x18380003, 0x40000002, 0x08001234, 0x00001235,
    };
    static const uint32_t words[ROOM] = {0xF1000000, 0x41000002, 0x01001234, 0x01001235};
    static const uint32_t done[STATE_WORDS] = {0x81400000, 0, 0x40000000, 0x80000000}, fresh[STATE_WORDS];
    static const struct lent all[] = {
        {"none lent", {0}, 0, HERRINGCART_DONE, 4},
        {"both good", {HERRINGCART_GOOD, HERRINGCART_GOOD}, 2, HERRINGCART_DONE, 4},
        {"the one with abort failed", {HERRINGCART_FAILED}, 1, HERRINGCART_DONE, 3},
        {"the one without abort failed", {HERRINGCART_GOOD, HERRINGCART_FAILED}, 2, HERRINGCART_DONE, 4},
        {"a word above 1", {2}, 1, HERRINGCART_BAD_OUTCOME, 0},
        {"a word above 1 that no call reads", {HERRINGCART_FAILED, HERRINGCART_FAILED, 2}, 3, HERRINGCART_BAD_OUTCOME, 0},
    };
    for (size_t i = 0; i < sizeof all / sizeof *all; i++) {
        const struct lent *e = &all[i];
        uint32_t trace[ROOM] = {UNTOUCHED, UNTOUCHED, UNTOUCHED, UNTOUCHED}, visits = 99;
        size_t count = 99;
        expect("fresh", herringcart_make_fresh(failing, WORDS, state, STATE_WORDS), 0);
        uint32_t answer = herringcart_take_event(failing, WORDS, state, STATE_WORDS, trace, ROOM, e->outcomes, e->words, 0x11000500,
                                                 &count, &visits);
        printf("outcomes, %s: answer %" PRIu32 ", count %zu, visits %" PRIu32 "\n", e->what, answer, count, visits);
        expect("answer", answer, e->answer);
        expect("count", count, e->count);
        expect("visits", visits, e->answer == HERRINGCART_DONE ? 1 : 0);
        expect_words("state", state, e->answer ? fresh : done, STATE_WORDS);
        expect_words("trace", trace, words, e->count);
        for (size_t w = e->count; w < ROOM; w++)
            expect("a trace word past the count", trace[w], UNTOUCHED);
    }
}

/* Port 0, asked for 5, has both rules arbitrated. Rule 0 is (port 0 = 5) AND ((port 0 = 9) OR NOT (port 1 = 5)): true, six words.
 * Rule 1 is the same with NAND for AND and starts no list. Rule 0's list evaluates rule 1 again. With 4 asked for, the left side settles
 * AND and NAND: two words for each rule, and no list runs. Refused, nothing is visited. */
static void visits(void)
{
    enum { WORDS = 16, STATE = 4, ROOM = 2 };
    static const uint32_t shared[WORDS] = {
        0x01020000, 0x00070002, 0x00010001, 0x11000000, 0x11000000, 0x00005000, 0x00009000, 0x00105000,
        0x80008000, 0x50004003, 0x40000004, 0x70000004, 0x100500FF, 0x1006FFFF, 0x10000001, 0x60010000,
    };
    static const struct {
        uint32_t event, answer, visits;
    } asked[] = {{0x11000500, 0, 18}, {0x11000400, 0, 4}, {0x12000500, 6, 0}, {0, 0, 0}};
    uint32_t mine[STATE], trace[ROOM] = {0}, bound = 99;
    size_t place = 99, taken = 99, count = 99;
    uint64_t sum = 99;
    expect("reason", herringcart_check_table(shared, WORDS, &place, &bound), HERRINGCART_ACCEPTED);
    expect("B", bound, ROOM);
    expect("fresh", herringcart_make_fresh(shared, WORDS, mine, STATE), 0);
    for (size_t i = 0; i < sizeof asked / sizeof *asked; i++) {
        uint32_t visited = 99;
        uint32_t answer =
            herringcart_take_event(shared, WORDS, mine, STATE, trace, ROOM, shared, 0, asked[i].event, &count, &visited);
        printf("visits, event %08" PRIX32 ": answer %" PRIu32 ", visits %" PRIu32 "\n", asked[i].event, answer, visited);
        expect("answer", answer, asked[i].answer);
        expect("visits", visited, asked[i].visits);
    }
    static const uint32_t day[] = {0x11000400, 0x11000500, 0, 0x11000400};
    uint32_t words[4 * ROOM] = {0};
    expect("played", herringcart_play(shared, WORDS, mine, STATE, words, 4 * ROOM, day, 4, &taken, &count, &sum), 0);
    printf("visits of a play: %" PRIu64 "\n", sum);
    expect("visits of a play", sum, 4 + 18 + 0 + 4);
}

/* A panel that is asked for, the answer, and its lines. */
struct shown {
    const char *what;
    uint32_t operator_number;
    size_t table_words, words, room;
    uint32_t answer;
    const char *lines;
};

/* The panels of the marked run's first event: operator 1 sees its ports, its network and what the step wrote, which the event call's
 * trace and count are handed on for. Operator 2 owns nothing here and sees nothing. A refusal changes no byte. */
static void panels(void)
{
    enum { ROOM = HERRINGCART_PANEL_BYTES(BOUND), UNTOUCHED_BYTE = 0x55 };
    static const char six[] = "port 0 81400000\nport 1 00000000\nnetwork 0 80000000\n"
                              "trace F1000000\ntrace 41000002\ntrace 01001234\n";
    static const char three[] = "port 0 81400000\nport 1 00000000\nnetwork 0 80000000\n";
    uint32_t trace[BOUND] = {0}, visits = 99;
    size_t count = 99;
    expect("fresh", herringcart_make_fresh(table, TABLE_WORDS, state, STATE_WORDS), 0);
    expect("answer",
           herringcart_take_event(table, TABLE_WORDS, state, STATE_WORDS, trace, BOUND, table, 0, 0x11000500, &count, &visits), 0);
    const struct shown all[] = {
        {"operator 1", 1, TABLE_WORDS, count, ROOM, HERRINGCART_DONE, six},
        {"operator 1, in just enough room", 1, TABLE_WORDS, count, sizeof six - 1, HERRINGCART_DONE, six},
        {"operator 1, without a step's words", 1, TABLE_WORDS, 0, ROOM, HERRINGCART_DONE, three},
        {"operator 2", 2, TABLE_WORDS, count, ROOM, HERRINGCART_DONE, ""},
        {"the platform", HERRINGCART_PLATFORM, TABLE_WORDS, count, ROOM, HERRINGCART_NO_OPERATOR, ""},
        {"a number above 15, with a bad table", 17, TABLE_WORDS - 1, count, ROOM, HERRINGCART_NO_OPERATOR, ""},
        {"a bad table", 1, TABLE_WORDS - 1, count, ROOM, HERRINGCART_BAD_TABLE, ""},
        {"a byte too little room", 1, TABLE_WORDS, count, sizeof six - 2, HERRINGCART_NO_ROOM, ""},
    };
    for (size_t i = 0; i < sizeof all / sizeof *all; i++) {
        const struct shown *e = &all[i];
        uint8_t lines[ROOM];
        size_t bytes = 99, length = strlen(e->lines);
        memset(lines, UNTOUCHED_BYTE, sizeof lines);
        uint32_t answer = herringcart_panel(e->operator_number, table, e->table_words, state, STATE_WORDS, trace, e->words, lines,
                                            e->room, &bytes);
        printf("panel, %s: answer %" PRIu32 ", bytes %zu\n", e->what, answer, bytes);
        expect("answer", answer, e->answer);
        expect("bytes", bytes, length);
        /* no 0 ends the lines: their length goes with them */
        printf("%.*s", (int)bytes, (const char *)lines);
        for (size_t b = 0; b < ROOM; b++)
            expect("a byte of the lines", lines[b], b < length ? (uint8_t)e->lines[b] : UNTOUCHED_BYTE);
    }
}

/* What a supplier recorded of an event, and what is said of it: the verdict, its number, and the part, whose it is and its length. */
struct held {
    const char *what;
    uint32_t event;
    uint32_t theirs[BOUND + 1];
    size_t words;
    uint32_t their_state[STATE_WORDS + 1];
    size_t state_words;
    uint32_t verdict;
    size_t number;
    char whose; /* 't'heirs, 'o'urs, or 0 for an empty part */
    size_t rest;
};

/* A supplier's recordings of the marked run's first event, held against our own step from the fresh state. The part is a piece of one of
 * the two traces: the very words, no copy. State and trace end as behind an event call. */
static void holds(void)
{
    enum { ROOM = BOUND + 2, GO = 0x11000500 };
#define A UINT32_C(0xF1000000)
#define B UINT32_C(0x41000002)
#define C UINT32_C(0x01001234)
#define DONE {0x81400000, 0, 0x40000000, 0x80000000}
    static const uint32_t done[STATE_WORDS] = DONE, fresh[STATE_WORDS], ours[BOUND] = {A, B, C};
    static const struct held all[] = {
        {"our own words", GO, {A, B, C}, 3, DONE, 4, HERRINGCART_AS_ORDERED, 0, 0, 0},
        {"another's port", 0x12000500, {A, B, C}, 3, DONE, 4, HERRINGCART_REFUSED, HERRINGCART_OTHER_OWNER, 0, 0},
        {"another word", GO, {A, B + 1, C}, 3, DONE, 4, HERRINGCART_TRACES_PART, 1, 't', 2},
        {"two words exchanged, and no state", GO, {B, A, C}, 3, {0}, 0, HERRINGCART_TRACES_PART, 0, 't', 3},
        {"a word lost at the end", GO, {A, B}, 2, DONE, 4, HERRINGCART_THEIRS_STOPS, 2, 'o', 1},
        {"nothing", GO, {0}, 0, {0}, 0, HERRINGCART_THEIRS_STOPS, 0, 'o', 3},
        {"a word more", GO, {A, B, C, UNTOUCHED}, 4, DONE, 4, HERRINGCART_OURS_STOPS, 3, 't', 1},
        {"another state", GO, {A, B, C}, 3, {0x81400000, 0, 0x40000000, 0x80000001}, 4, HERRINGCART_STATES_PART, 3, 0, 0},
        {"a state that is a word short", GO, {A, B, C}, 3, DONE, 3, HERRINGCART_STATES_PART, 3, 0, 0},
        {"a state that is a word long", GO, {A, B, C}, 3, DONE, 5, HERRINGCART_STATES_PART, 4, 0, 0},
    };
#undef A
#undef B
#undef C
#undef DONE
    for (size_t i = 0; i < sizeof all / sizeof *all; i++) {
        const struct held *e = &all[i];
        struct held lent = *e;
        uint32_t trace[ROOM], visits = 99;
        size_t number = 99, rest = 99, count = 99, taken = e->verdict == HERRINGCART_REFUSED ? 0 : BOUND;
        memset(trace, 0x55, sizeof trace);
        expect("fresh", herringcart_make_fresh(table, TABLE_WORDS, state, STATE_WORDS), 0);
        uint32_t verdict = herringcart_hold(table, TABLE_WORDS, state, STATE_WORDS, trace, ROOM, table, 0, e->event, lent.theirs,
                                            lent.words, lent.their_state, lent.state_words, &number, &rest, &count, &visits);
        printf("held, %s: verdict %" PRIu32 ", number %zu, words of the part %zu\n", e->what, verdict, number, rest);
        expect("verdict", verdict, e->verdict);
        expect("number", number, e->number);
        expect("words of the part", rest, e->rest);
        expect("count", count, taken);
        expect("visits", visits, taken ? 1 : 0);
        const uint32_t *part = herringcart_part(verdict, number, trace, lent.theirs);
        const uint32_t *whose = e->whose == 'o' ? trace : lent.theirs;
        expect("the part's place", (uint64_t)(part - whose), e->whose ? e->number : 0);
        expect("the part's end", e->whose ? number + rest : 0, e->whose == 'o' ? count : e->whose ? e->words : 0);
        expect_words("part", part, e->whose == 'o' ? ours + e->number : e->theirs + (e->whose ? e->number : 0), rest);
        expect_words("state", state, taken ? done : fresh, STATE_WORDS);
        for (size_t w = 0; w < ROOM; w++)
            expect("a trace word", trace[w], w < taken ? ours[w] : UNTOUCHED);
        expect("the supplier's words", (uint64_t)memcmp(lent.theirs, e->theirs, sizeof e->theirs), 0);
        expect("the supplier's state", (uint64_t)memcmp(lent.their_state, e->their_state, sizeof e->their_state), 0);
    }
}

/* The marked table's listing, as document 02 has it. */
static const char marked[] = "header 1 2 1 0\nheader 1 1\nheader 1 2\nport 0 0 0 1 0 0\nport 0 1 0 1 0 0\nnetwork 1 1 2 0\n"
                             "network 3 10 5\nexpression 0 0 5 0\nrule 1 0 0 0 0 255\nlist 1 1 7 0 2\nitem 4 0 2\nitem 0 0 4660\n";

#define LISTING (sizeof marked - 1) /* bytes: no 0 ends a listing */

/* A table to list: the marked one with another word at a place, or its front, in so much room. */
struct to_list {
    const char *what;
    size_t place;
    uint32_t word;
    size_t table_words, room;
    uint32_t answer;
};

/* Tables that are listed, and that are not. What reason 5 refuses lists too; a refusal changes no byte. */
static void listings(void)
{
    enum { ROOM = 300, UNTOUCHED_BYTE = 0x55 };
    static const struct to_list all[] = {
        {"the marked table", 0, 0x01020100, TABLE_WORDS, ROOM, HERRINGCART_DONE},
        {"in just enough room", 0, 0x01020100, TABLE_WORDS, LISTING, HERRINGCART_DONE},
        {"in a byte too little", 0, 0x01020100, TABLE_WORDS, LISTING - 1, HERRINGCART_NO_ROOM},
        {"two words", 0, 0x01020100, 2, 0, HERRINGCART_TOO_SHORT},
        {"edition 3", 0, 0x03020100, TABLE_WORDS, ROOM, HERRINGCART_WRONG_EDITION},
        {"no rule", 1, 0x00010000, TABLE_WORDS, ROOM, HERRINGCART_WRONG_COUNTS},
        {"a word missing", 0, 0x01020100, TABLE_WORDS - 1, 0, HERRINGCART_WRONG_LENGTH},
        {"a network that waits 0 ticks, reason 5", 6, 0x000A0005, TABLE_WORDS, ROOM, HERRINGCART_DONE},
    };
    for (size_t i = 0; i < sizeof all / sizeof *all; i++) {
        const struct to_list *e = &all[i];
        uint32_t words[TABLE_WORDS];
        uint8_t lines[ROOM];
        size_t bytes = 99, length = e->answer == HERRINGCART_DONE ? LISTING : 0;
        memcpy(words, table, sizeof table);
        words[e->place] = e->word;
        memset(lines, UNTOUCHED_BYTE, sizeof lines);
        uint32_t answer = herringcart_list(words, e->table_words, lines, e->room, &bytes);
        printf("listed, %s: answer %" PRIu32 ", bytes %zu\n", e->what, answer, bytes);
        expect("answer", answer, e->answer);
        expect("bytes", bytes, length);
        printf("%.*s", (int)bytes, (const char *)lines);
        for (size_t b = 0; b < ROOM; b++) {
            char due = marked[b < length ? b : 0];
            /* line 7, network 3 10 5, which the last table has with 0 in place of 3 */
            if (e->place == 6 && b == (size_t)(strstr(marked, "3 10 5") - marked))
                due = '0';
            expect("a byte of the listing", lines[b], b < length ? (uint8_t)due : UNTOUCHED_BYTE);
        }
    }
}

/* A text to read: the marked table's listing with some bytes of it taken out from a place on, and others put there. */
struct to_read {
    const char *what;
    const char *from; /* the place is where this begins, or the end */
    size_t out;
    const char *in;
    size_t room;
    uint32_t answer;
    size_t line;
};

/* The listing read back, and texts that are none: the answer, and the number of the first bad line. Line 11 is not answer 11. A refusal changes
 * no word. */
static void readings(void)
{
    static const struct to_read all[] = {
        {"the listing", "", 0, "", TABLE_WORDS + 2, HERRINGCART_DONE, 0},
        {"in just enough room", "", 0, "", TABLE_WORDS, HERRINGCART_DONE, 0},
        {"in a word too little", "", 0, "", TABLE_WORDS - 1, HERRINGCART_NO_ROOM, 0},
        {"a leading zero", "0 0\nport", 1, "00", TABLE_WORDS, HERRINGCART_BAD_LINE, 4},
        {"a list word with a sixth field", "list", 4, "list 0", 0, HERRINGCART_BAD_LINE, 10},
        {"a field too big, in line 11 and no room", "4 0 2", 1, "16", 0, HERRINGCART_BAD_LINE, 11},
        {"the last line missing", "item 0", 14, "", TABLE_WORDS, HERRINGCART_BAD_LINE, 12},
        {"its newline missing", "item 0", 14, "item 0 0 4660", TABLE_WORDS, HERRINGCART_BAD_LINE, 12},
        {"a line more", "", 0, "item 0 0 0\n", TABLE_WORDS + 2, HERRINGCART_BAD_LINE, 13},
        {"another line's name", "rule", 4, "list", TABLE_WORDS, HERRINGCART_BAD_LINE, 9},
        {"edition 3", "1 2 1 0", 1, "3", TABLE_WORDS, HERRINGCART_BAD_LINE, 1},
        {"one source more, which no line is of", "0\nheader 1 1", 1, "1", TABLE_WORDS + 2, HERRINGCART_BAD_LINE, 8},
    };
    for (size_t i = 0; i < sizeof all / sizeof *all; i++) {
        const struct to_read *e = &all[i];
        uint32_t words[TABLE_WORDS + 2];
        char text[LISTING + 20];
        size_t count = 99, line = 99, done = e->answer == HERRINGCART_DONE ? TABLE_WORDS : 0;
        const char *from = *e->from ? strstr(marked, e->from) : marked + LISTING;
        int length = snprintf(text, sizeof text, "%.*s%s%s", (int)(from - marked), marked, e->in, from + e->out);
        memset(words, 0x55, sizeof words);
        uint32_t answer = herringcart_read((const uint8_t *)text, (size_t)length, words, e->room, &count, &line);
        printf("read, %s: answer %" PRIu32 ", words %zu, line %zu\n", e->what, answer, count, line);
        expect("answer", answer, e->answer);
        expect("words", count, done);
        expect("line", line, e->line);
        for (size_t w = 0; w < TABLE_WORDS + 2; w++)
            expect("a word read", words[w], w < done ? table[w] : UNTOUCHED);
    }
}

/* The table with the longest listing there is: listed, read back, the words compared, listed again and the bytes compared. */
static void there_and_back(void)
{
    enum { WORDS = HERRINGCART_TABLE_WORDS, LONGEST = 71508 };
    static uint32_t words[WORDS], back[WORDS];
    static uint8_t lines[HERRINGCART_LISTING_BYTES], again[LONGEST];
    size_t bytes = 99, count = 99, line = 99;
    memset(words, 0xFF, sizeof words);
    words[0] = 0x02400820;
    words[1] = 0x02000100;
    words[2] = 0x00FF07FF;
    expect("listed", herringcart_list(words, WORDS, lines, sizeof lines, &bytes), HERRINGCART_DONE);
    printf("the longest listing: %zu bytes\n", bytes);
    expect("bytes", bytes, LONGEST);
    expect("in a byte too little", herringcart_list(words, WORDS, again, LONGEST - 1, &bytes), HERRINGCART_NO_ROOM);
    expect("read back", herringcart_read(lines, LONGEST, back, WORDS, &count, &line), HERRINGCART_DONE);
    expect("words", count, WORDS);
    expect("the same words", (uint64_t)memcmp(words, back, sizeof words), 0);
    expect("listed again", herringcart_list(back, count, again, sizeof again, &bytes), HERRINGCART_DONE);
    expect("the same bytes", bytes == LONGEST ? (uint64_t)memcmp(lines, again, LONGEST) : 1, 0);
}

/* A log of the marked table's one network, read from a cursor in so much room, and what is said of it. */
struct to_convert {
    const char *what;
    const char *interfaces;
    size_t from, bytes, room;
    uint32_t answer;
    uint64_t line;
    size_t events; /* up to so many of all */
};

/* The bench's log: a bus-off behind 25 milliseconds, and another 15 milliseconds later. Each call goes on where the one before it ended: in
 * room for one event, which ends in the midst of a line; with a part that ends behind the second line; and with what is left. */
static void logs(void)
{
    enum { EVENTS = 6, ROOM = 8 };
    static const char log[] = "(1700000000.250037) can0 123#0011\n"
                              "(1700000000.275036) can0 20000040#0000000000000000\n"
                              "(1700000000.290037) can0 200000C4#\n"
                              "(1700000000.290037) can0 321#R\n";
    static const uint32_t all[EVENTS] = {0, 0, 0x51000000, 0, 0, 0x51000000};
    const size_t first = (size_t)(strchr(log, '\n') - log) + 1, second = (size_t)(strchr(log + first, '\n') - log) + 1;
    const size_t last = (size_t)(strrchr(log, '(') - log);
    const struct to_convert parts[] = {
        {"two names for one network", "can0\ncan1\n", 0, last, ROOM, HERRINGCART_BAD_INTERFACES, 0, 0},
        {"in room for one event", "can0\n", 0, last, 1, HERRINGCART_NO_ROOM, 2, 1},
        {"gone on with, up to the second line's end", "can0\n", first, second - first, ROOM, HERRINGCART_DONE, 0, 3},
        {"another interface", "can1\n", second, last - second, ROOM, HERRINGCART_NOT_LISTED, 3, 3},
        {"the lines behind it", "can0\n", second, sizeof log - 1 - second, ROOM, HERRINGCART_MISSPELT, 4, EVENTS},
        {"the first line again", "can0\n", 0, last, ROOM, HERRINGCART_GOES_BACK, 4, EVENTS},
    };
    struct herringcart_cursor at = HERRINGCART_LOG_START;
    size_t given = 0;
    for (size_t i = 0; i < sizeof parts / sizeof *parts; i++) {
        const struct to_convert *e = &parts[i];
        uint32_t out[ROOM];
        uint64_t line = 99;
        size_t events = 99, bytes = 99;
        memset(out, 0x55, sizeof out);
        uint32_t answer = herringcart_read_log(table, TABLE_WORDS, (const uint8_t *)e->interfaces, strlen(e->interfaces),
                                               (const uint8_t *)log + e->from, e->bytes, &at.lines, &at.first, &at.last, &at.given, out,
                                               e->room, &line, &events, &bytes);
        printf("log, %s: answer %" PRIu32 ", line %" PRIu64 ", bytes %zu\n", e->what, answer, line, bytes);
        expect("answer", answer, e->answer);
        expect("line", line, e->line);
        expect("events", events, e->events - given);
        expect_words("events", out, all + given, events);
        for (size_t w = events; w < ROOM; w++)
            expect("a word past the events", out[w], UNTOUCHED);
        given += events;
    }
    expect("lines", at.lines, 3);
    expect("the first time", at.first, UINT64_C(1700000000250037));
    expect("the last time", at.last, UINT64_C(1700000000290037));
    expect("ticks", at.given, 4);
}

/* Another archive than this header's may take other arguments: nothing is called with it. */
static void version(void)
{
    printf("version: header %d.%d, archive %" PRIu32 ".%" PRIu32 "\n", HERRINGCART_VERSION_MAJOR, HERRINGCART_VERSION_MINOR,
           herringcart_version() >> 16, herringcart_version() & 0xFFFF);
    if (herringcart_version() != HERRINGCART_VERSION_NUMBER) {
        printf("the archive is not of this header's version\n");
        exit(1);
    }
}

int main(void)
{
    static const struct expected refused[] = {
        {"malformed", 0x21000500, BOUND, HERRINGCART_MALFORMED_EVENT, {0}, 0, {0}, 0},
        {"no event port", 0x21000000, BOUND, HERRINGCART_NO_SUCH_THING, {0}, 0, {0}, 0},
        {"another's port", 0x12000500, BOUND, HERRINGCART_OTHER_OWNER, {0}, 0, {0}, 0},
        {"two words of room", 0x11000500, 2, HERRINGCART_SHORT_TRACE, {0}, 0, {0}, 0},
    };
    static const struct expected run[] = {
        {"request", 0x11000500, BOUND, 0, {0x81400000, 0, 0x40000000, 0x80000000}, 3, {0xF1000000, 0x41000002, 0x01001234}, 1},
        {"tick", 0, BOUND, 0, {0x81400000, 0x80800000, 0x40000000, 0x90000005}, 0, {0}, 0},
        {"bus-off", 0x51000000, BOUND, 0, {0x81400000, 0xC0C00000, 0x40000000, 0xA0080003}, 0, {0}, 0},
        {"tick 1", 0, BOUND, 0, {0x81400000, 0x80C00000, 0x40000000, 0xA0080002}, 0, {0}, 0},
        {"tick 2", 0, BOUND, 0, {0x81400000, 0x80C00000, 0x40000000, 0xA0080001}, 0, {0}, 0},
        {"tick 3, check again", 0, BOUND, 0, {0x81400000, 0x80800000, 0x40000000, 0x90080005}, 0, {0}, 0},
        {"tick 4", 0, BOUND, 0, {0x81400000, 0x80800000, 0x40000000, 0x90080004}, 0, {0}, 0},
        {"tick 5", 0, BOUND, 0, {0x81400000, 0x80800000, 0x40000000, 0x90080003}, 0, {0}, 0},
        {"tick 6", 0, BOUND, 0, {0x81400000, 0x80800000, 0x40000000, 0x90080002}, 0, {0}, 0},
        {"tick 7", 0, BOUND, 0, {0x81400000, 0x80800000, 0x40000000, 0x90080001}, 0, {0}, 0},
        {"tick 8, settled", 0, BOUND, 0, {0x81400000, 0x80800000, 0x40000000, 0x98000000}, 0, {0}, 0},
    };
    version();
    check();
    fresh();
    events();
    for (size_t i = 0; i < sizeof refused / sizeof *refused; i++)
        take(&refused[i]);
    for (size_t i = 0; i < sizeof run / sizeof *run; i++)
        take(&run[i]);
    play();
    outcomes();
    visits();
    panels();
    holds();
    listings();
    readings();
    there_and_back();
    logs();
    printf("as the documents have it\n");
    return 0;
}
