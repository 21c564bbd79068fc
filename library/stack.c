/* Measures how much stack the calls take, on tables of both editions that make them go as deep as a table can: lists nested
 * seven deep by rule items, each rule's expression nested seven deep, and in the deepest list an outside call, which fails;
 * and beside them as many rules and lists as there can be, all started, so that what a call notes of each is written to its
 * end. Each call runs on a stack that was filled with one byte just before; the lowest byte that it changed tells. Leaves
 * with status 1 if a call takes more than the header says. */
#define _XOPEN_SOURCE 700
#include "herringcart.h"

#include <pthread.h>
#include <stdio.h>
#include <stdlib.h>
#include <string.h>

#define STACK (256 * 1024)
#define FILL 0xC5
#define NEAR 512 /* bytes below a frame that memset itself may need */
#define LEVELS 7
#define RULES 256
#define LISTS 255
#define ITEMS (LEVELS + 2)
#define TABLE_WORDS (3 + 1 + LEVELS + RULES + LISTS + ITEMS)
#define STATE_WORDS (1 + RULES)

static uint32_t table[TABLE_WORDS];
static uint32_t state[STATE_WORDS];
static uint32_t trace[HERRINGCART_TRACE_WORDS];
static uint8_t lines[HERRINGCART_PANEL_BYTES(HERRINGCART_TRACE_WORDS)];
static uint8_t listing[HERRINGCART_LISTING_BYTES];
static uint32_t back[TABLE_WORDS];
static size_t place, count, laid, number, rest, listed, words_read, line, given;
static uint32_t bound, visits;

static void make_table(uint32_t edition)
{
    uint32_t *word = table;
    *word++ = edition << 24 | 0x00010000;       /* one port */
    *word++ = LEVELS << 16 | RULES;             /* expressions, rules */
    *word++ = LISTS << 16 | ITEMS;              /* lists, items */
    *word++ = 0x10000000;                       /* a mode port with an initial value */
    *word++ = 0x00005000;                       /* it equals 5 */
    for (uint32_t e = 1; e < LEVELS; e++)       /* XOR of the one before with itself: every visit is made */
        *word++ = 0x60000000 | (e - 1) << 14 | (e - 1);
    *word++ = 0x00000000;                       /* starts list 0 by either result */
    for (uint32_t r = 1; r <= LEVELS; r++) {    /* nested-only, on the deepest expression, starts list r */
        uint32_t list = r < LEVELS ? r : 255;
        *word++ = 0x02000000 | (LEVELS - 1) << 16 | list << 8 | list;
    }
    for (uint32_t r = LEVELS + 1; r < RULES; r++) /* starts a list beside, by either result */
        *word++ = (r - 1) << 8 | (r - 1);
    for (uint32_t l = 0; l < LEVELS; l++)       /* one item each, and all that are left in the last */
        *word++ = l << 8 | (l + 1 < LEVELS ? 1 : ITEMS - l);
    for (uint32_t l = LEVELS; l < LISTS; l++)   /* the last item alone */
        *word++ = (ITEMS - 1) << 8 | 1;
    for (uint32_t i = 0; i < LEVELS; i++)       /* the next rule */
        *word++ = 0x60000000 | (i + 1) << 16;
    *word++ = edition == 2 ? 0x08001234 : 0x00001234; /* a call, in edition 2 with abort, and one behind it */
    *word++ = 0x00001235;
}

static uint32_t check_table(void)
{
    return herringcart_check_table(table, TABLE_WORDS, &place, &bound);
}

static uint32_t make_fresh(void)
{
    return herringcart_make_fresh(table, TABLE_WORDS, state, STATE_WORDS);
}

static uint32_t check_state(void)
{
    return herringcart_check_state(table, TABLE_WORDS, state, STATE_WORDS);
}

static uint32_t play(void)
{
    static const uint32_t day[] = {0x10000500};
    static size_t taken;
    static uint64_t sum;
    return herringcart_play(table, TABLE_WORDS, state, STATE_WORDS, trace, bound, day, 1, &taken, &count, &sum);
}

static uint32_t take_event(void)
{
    static const uint32_t outcomes[] = {HERRINGCART_FAILED};
    return herringcart_take_event(table, TABLE_WORDS, state, STATE_WORDS, trace, bound, outcomes, 1, 0x10000500, &count, &visits);
}

/* The whole trace handed in, each word in turn the operator's. */
static uint32_t panel(void)
{
    static uint32_t words[HERRINGCART_TRACE_WORDS];
    for (size_t i = 0; i < HERRINGCART_TRACE_WORDS; i++)
        words[i] = 0x01000000 | (uint32_t)i;
    return herringcart_panel(1, table, TABLE_WORDS, state, STATE_WORDS, words, HERRINGCART_TRACE_WORDS, lines, sizeof lines, &laid);
}

/* Against an event's own recording: its trace, of its count, and its state, as the event call before it left them, so that every word is
 * looked at. Gives 0, as ordered. */
static uint32_t hold(void)
{
    static const uint32_t outcomes[] = {HERRINGCART_FAILED};
    static uint32_t theirs[HERRINGCART_TRACE_WORDS], their_state[STATE_WORDS];
    memcpy(theirs, trace, sizeof theirs);
    memcpy(their_state, state, sizeof their_state);
    return herringcart_hold(table, TABLE_WORDS, state, STATE_WORDS, trace, bound, outcomes, 1, 0x10000500, theirs, count, their_state,
                            STATE_WORDS, &number, &rest, &count, &visits);
}

static uint32_t list(void)
{
    return herringcart_list(table, TABLE_WORDS, listing, sizeof listing, &listed);
}

/* The listing that was laid just before. */
static uint32_t read_back(void)
{
    return herringcart_read(listing, listed, back, TABLE_WORDS, &words_read, &line);
}

/* A line behind many ticks. The table has no network, and with none no line is read; so it is the marked table's. */
static uint32_t read_log(void)
{
    static const uint32_t marked[] = {0x01020100, 0x00010001, 0x00010002, 0x01000000, 0x21000000, 0x10102000,
                                      0x030A0005, 0x00005000, 0x100000FF, 0x18380002, 0x40000002, 0x00001234};
    static const char log[] = "(0000000000.000000) fifteen-letters 123#\n(0000000001.230000) fifteen-letters 20000040#0011223344556677\n";
    static uint32_t out[124];
    struct herringcart_cursor at = HERRINGCART_LOG_START;
    uint64_t refused;
    size_t bytes;
    uint32_t answer = herringcart_read_log(marked, sizeof marked / sizeof *marked, (const uint8_t *)"fifteen-letters\n", 16,
                                           (const uint8_t *)log, sizeof log - 1, &at.lines, &at.first, &at.last, &at.given, out,
                                           sizeof out / sizeof *out, &refused, &given, &bytes);
    return answer;
}

/* The same call with the deep table: its check is the deepest part, and what follows it with no network and no line is next to nothing. */
static uint32_t read_no_log(void)
{
    struct herringcart_cursor at = HERRINGCART_LOG_START;
    uint64_t refused;
    size_t bytes;
    return herringcart_read_log(table, TABLE_WORDS, lines, 0, lines, 0, &at.lines, &at.first, &at.last, &at.given, back, TABLE_WORDS,
                                &refused, &given, &bytes);
}

static _Alignas(65536) unsigned char stack[STACK];

struct measured {
    uint32_t (*call)(void);
    uint32_t answer;
    size_t bytes;
};

/* Fills what lies below this thread's own frame, makes the call, and finds the lowest byte that it changed: before the
 * thread's end, which goes deep itself, can change one. */
static void *measure_here(void *given)
{
    struct measured *m = given;
    unsigned char *volatile here = (unsigned char *)&m;
    size_t below = (size_t)(here - stack);
    memset(stack, FILL, below - NEAR);
    m->answer = m->call();
    size_t untouched = 0;
    while (stack[untouched] == FILL)
        untouched++;
    m->bytes = below - untouched;
    return NULL;
}

/* The bytes of stack that a call takes, on a stack of its own. */
static size_t taken(uint32_t (*call)(void))
{
    struct measured m = {call, 0, 0};
    pthread_t thread;
    pthread_attr_t how;
    pthread_attr_init(&how);
    if (pthread_attr_setstack(&how, stack, STACK) != 0 || pthread_create(&thread, &how, measure_here, &m) != 0
        || pthread_join(thread, NULL) != 0 || m.answer != 0) {
        printf("no thread, or answer %u\n", (unsigned)m.answer);
        exit(1);
    }
    return m.bytes;
}

/* Measures every call on a table of this edition; gives 1 if one takes more than the header says. */
static int measure(uint32_t edition)
{
    static const struct {
        const char *name;
        uint32_t (*call)(void);
    } calls[] = {
        {"check_table", check_table}, {"make_fresh", make_fresh}, {"check_state", check_state}, {"play", play},
        {"take_event", take_event},   {"hold", hold},             {"panel", panel},             {"list", list},
        {"read", read_back},          {"read_log", read_no_log},  {"read_log", read_log},
    };
    int more = 0;
    make_table(edition);
    for (size_t i = 0; i < sizeof calls / sizeof *calls; i++) {
        size_t bytes = taken(calls[i].call);
        printf("edition %u, herringcart_%s: %zu bytes of stack\n", (unsigned)edition, calls[i].name, bytes);
        if (bytes > HERRINGCART_STACK_BYTES)
            more = 1;
    }
    /* The port is the platform's: the panel has the trace words alone. */
    if (laid != 15 * HERRINGCART_TRACE_WORDS) {
        printf("%zu bytes of panel\n", laid);
        exit(1);
    }
    if (words_read != TABLE_WORDS || memcmp(back, table, sizeof table) != 0) {
        printf("the listing is not read back: %zu words\n", words_read);
        exit(1);
    }
    if (given != 124) {
        printf("%zu events of the log\n", given);
        exit(1);
    }
    /* In the event every list started and every rule item ran; of the deepest list's two outside calls edition 2 leaves
     * out the second. */
    size_t expected = 2 * LEVELS + (edition == 2 ? 1 : 2) + 2 * (LISTS - LEVELS);
    if (count != expected) {
        printf("%zu trace words, not %zu\n", count, expected);
        exit(1);
    }
    /* The rules that start lists have one condition each; of the rule items each evaluated a whole tree, seven deep. */
    uint32_t visited = RULES - LEVELS + LEVELS * ((1 << LEVELS) - 1);
    if (visits != visited) {
        printf("%u visits, not %u\n", (unsigned)visits, (unsigned)visited);
        exit(1);
    }
    return more;
}

int main(void)
{
    int status = measure(1) | measure(2);
    printf(status ? "MORE than the header's %d\n" : "the header says at most %d\n", HERRINGCART_STACK_BYTES);
    return status;
}
