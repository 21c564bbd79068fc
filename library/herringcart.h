/* Herringcart: the proved mode manager's calls for C and C++.
 *
 * Tables, states, traces, outcomes, events and what a supplier recorded are lent as arrays of 32-bit words, each by a pointer and its
 * length in words; a panel's lines and a table's listing are laid into an array of bytes, and a listing, a bus log and a list of interfaces
 * are read from one. docs/TABLES.md has the layout of every word, and what to do about each reason and answer.
 * Every call takes any words and bytes: it checks them for itself, and a refusal leaves every word of state and trace, every byte of
 * lines, and every word that a listing is to be read into, as it was. herringcart_read_log alone writes words and is then refused: the
 * events of the lines before the one that is refused stay.
 *
 * What version 5.0 changes for a caller:
 *
 *   - herringcart_take_event and herringcart_play report visits behind the count, the expression words visited (below). It is
 *     always written, so a caller that does not want it lends a variable all the same:
 *
 *         4.0  herringcart_take_event(table, words, state, n, trace, room, outcomes, calls, event, &count)
 *         5.0  herringcart_take_event(table, words, state, n, trace, room, outcomes, calls, event, &count, &visits)
 *
 *         4.0  herringcart_play(table, words, state, n, trace, room, events, length, &taken, &count)
 *         5.0  herringcart_play(table, words, state, n, trace, room, events, length, &taken, &count, &visits)
 *
 *     The event's visits are a uint32_t, the play's a uint64_t.
 *   - HERRINGCART_MOST_VISITS is new. Nothing else differs: every table, answer, state, trace and count is 4.0's.
 *
 * 5.1 changes no call, number, state or trace: of the answers 7, which was never given, is not one any more.
 * 5.2 has one call more, herringcart_panel, with HERRINGCART_NO_OPERATOR, HERRINGCART_NO_ROOM and HERRINGCART_PANEL_BYTES. No call
 * that was there before differs.
 * 5.3 changes no call, number, state or trace. What is promised of them is more: for one operator they go by its own events, the platform's and
 * the ticks alone, whatever other operators send (docs/CHANGES.md).
 * 5.4 has one call more, herringcart_hold, with enum herringcart_verdict and herringcart_part. No call that was there before differs.
 * 5.5 has two calls more, herringcart_list and herringcart_read, with HERRINGCART_LISTING_BYTES and HERRINGCART_BAD_LINE. No call that was
 * there before differs.
 * 5.6 has one call more, herringcart_read_log, with enum herringcart_log_answer and struct herringcart_cursor. No call that was there
 * before differs.
 * docs/CHANGES.md says what the versions before changed; since 4.0 an event call lends outcomes.
 *
 * The linker does not look at arguments. A program that was compiled with the header of another version may link with this
 * archive, and its event calls and plays then hand over the wrong words, or the archive writes visits to an address that nobody
 * gave it: compile it anew. So that this is found, a program compares the two versions at its start, the header's and the archive's:
 *
 *         if (herringcart_version() != HERRINGCART_VERSION_NUMBER) ...do not go on...
 *
 * Archives before 4.0 have no such call, and with them a program that makes it does not link.
 *
 * What is proved is the calls' results and every lent word afterwards, under these conditions on the pointers, which
 * no call can check for itself:
 *
 *   - No pointer is null, for a length of 0 neither: any aligned address other than null will do there.
 *   - uint32_t pointers are aligned for uint32_t, size_t pointers for size_t, uint64_t pointers for uint64_t. Lines, text, log and
 *     interfaces may stand anywhere.
 *   - Each array is valid for its whole length for as long as the call runs: table, events, outcomes, a panel's words, theirs,
 *     their_state, a text, a log, interfaces and a `const` state to read; state, trace, lines, the words that a text is read into and those
 *     that a log's events are laid into to read and write. All these that are written must have been written once before they are lent,
 *     with whatever values: the trace's words and the bytes of lines too, for the call may read them. So must the four numbers of a cursor.
 *   - An array is at most PTRDIFF_MAX bytes long.
 *   - What a call writes (state, trace, lines, the words that a text is read into, those that a log's events are laid into, *place, *bound,
 *     *count, *taken, *visits, *bytes, *number, *rest, *line, *events, a cursor's numbers) overlaps nothing else lent in the same call:
 *     visits neither count nor taken, number, rest and count not each other, line not count, and of a log's numbers none another. What it
 *     only reads may overlap: table, events, outcomes, a panel's words, theirs, their_state, a text, a log, interfaces and a `const`
 *     state.
 *   - While the call runs, no other thread, interrupt or device writes what is lent, and none reads what the call
 *     writes. The table may stand in read-only memory, and any number of calls may read it at the same time.
 *
 * The calls keep nothing: no global or static data, no heap, no file, no lock. They may be interrupted and called again
 * from elsewhere on other states. They need memcpy and memset of the C library and nothing else.
 *
 * That each call ends and what it gives is proved of the Rattle functions. The compiler and its back end are trusted.
 * A call takes at most HERRINGCART_STACK_BYTES of stack. That is measured, not proved: stack.c, run by the gate, makes
 * the calls go as deep as a table can. The deepest took 9.3 KiB, for lists and expressions nest at most seven deep and
 * the local arrays have 1 KiB each.
 *
 * Visits are how many expression words an event's evaluations look at, for whoever reckons how long an event can take. That the number
 * is the one of the rules is proved, and so is the most that it can be:
 *
 *   - A condition is 1. An operator is 1 and its left side's visits, and its right side's where the left has not settled it: false settles
 *     AND and NAND, true settles OR, and nothing settles XOR. NOT is 1 and its left side's.
 *   - Every evaluation counts each time: of each rule that arbitration evaluates, and of each rule item that evaluates its rule. A word
 *     that rules share, or that one expression names twice, counts as often as it is visited.
 *   - An event visits at most 127 * (R + B) words, R the table's rules and B as herringcart_check_table gives it: an evaluation at
 *     most 127, for expressions nest seven deep at most. So never more than HERRINGCART_MOST_VISITS. A refused event visits 0.
 *   - Three things are no evaluation and do not count, though they take time: the check of table and state; the test whether a rule
 *     mentions a port that is arbitrated, made of every rule that is not nested-only; and, while some port of the table is undefined, the
 *     test whether a rule mentions such a port, made of the rules that passed the first test and by each rule item. A test reads up to 127
 *     expression words, both sides of each operator, until it meets such a port. A rule item that meets an undefined one evaluates nothing
 *     and counts 0.
 *     So the most that an event can take is measured, not reckoned from its visits alone.
 *
 * What a call costs: all but herringcart_state_words, herringcart_version, herringcart_list and herringcart_read check the whole table
 * each time, for nothing is kept. Measured on an Arm Neoverse N1, with the older kit, an event takes some 30 ns for each word of the table
 * (docs/BENCHMARKS.md): 0.4 us with 12 words, 86 us with 2,892. Tables made to be slow to check take up to 1.4 ms a call. The slowest that
 * are known run 4,080 rule items in one event: 3.5 ms, and 5.2 ms while a port is undefined. herringcart_play checks table and state once
 * for all its events, and then an event costs what it does alone. herringcart_panel checks table and state as an event does, and then goes
 * twice through the operator's lines. herringcart_hold takes its event, and then goes once through the words that are the same on both
 * sides. herringcart_list goes twice through the table, and herringcart_read at most twice through the text. herringcart_read_log checks
 * the table, holds the names of the list against each other, and goes once through the log and once through the events that it lays; each
 * line's name is held against the list's from the first on. Whoever has a deadline measures with the table that is to be deployed.
 */
#ifndef HERRINGCART_H
#define HERRINGCART_H

#if !defined(__linux__) || !defined(__LP64__) || !(defined(__x86_64__) || (defined(__aarch64__) && defined(__AARCH64EL__)))
#error "herringcart: the archive is for 64-bit x86 and little-endian Arm Linux only"
#endif

#include <stddef.h>
#include <stdint.h>

/* The version of this header and of the archive beside it. docs/CHANGES.md says what each version changes. The number is
 * what herringcart_version of that archive gives. */
#define HERRINGCART_VERSION "5.6"
#define HERRINGCART_VERSION_MAJOR 5
#define HERRINGCART_VERSION_MINOR 6
#define HERRINGCART_VERSION_NUMBER (UINT32_C(65536) * HERRINGCART_VERSION_MAJOR + HERRINGCART_VERSION_MINOR)

#ifdef __cplusplus
extern "C" {
#endif

/* The most words there can be: of a table, of a state (P+R+N+S), and of the trace an event is lent (B). */
#define HERRINGCART_TABLE_WORDS 3185
#define HERRINGCART_STATE_WORDS 360
#define HERRINGCART_TRACE_WORDS 4096

/* The most expression words that an event can visit, 127 * (256 + 4096). */
#define HERRINGCART_MOST_VISITS 552704

/* Bytes that are always enough for a panel's lines, by how many trace words are handed in: 104 things of at most 21 bytes (64 ports,
 * 8 networks and 32 sources are the most that a table has), and 15 for each trace word. For an array of one's own:
 *
 *         static uint8_t lines[HERRINGCART_PANEL_BYTES(HERRINGCART_TRACE_WORDS)]; */
#define HERRINGCART_PANEL_BYTES(words) (2184 + 15 * (size_t)(words))

/* Bytes that are always enough for a listing: HERRINGCART_TABLE_WORDS lines, and no line has more than 47 bytes, which is proved. The
 * longest that there is has 71,508. */
#define HERRINGCART_LISTING_BYTES 149695

/* The most stack a call takes, in bytes. */
#define HERRINGCART_STACK_BYTES 16384

/* Why a table is refused, in the order in which the reasons are tried: 10 stands before 9. */
enum herringcart_reason {
    HERRINGCART_ACCEPTED = 0,
    HERRINGCART_TOO_SHORT = 1,     /* fewer than 3 words */
    HERRINGCART_WRONG_EDITION = 2, /* edition is neither 1 nor 2 */
    HERRINGCART_WRONG_COUNTS = 3,  /* a count is outside its limits */
    HERRINGCART_WRONG_LENGTH = 4,  /* length differs from what the header asks for */
    HERRINGCART_MISFIT = 5,        /* a word breaks its own field rules */
    HERRINGCART_MISNAMED = 6,      /* a word names an absent thing or one of a wrong kind */
    HERRINGCART_TOO_DEEP = 7,      /* an expression or list nests deeper than seven, or without end */
    HERRINGCART_OWNERS_CLASH = 8,
    HERRINGCART_UNREACHED = 10,    /* a list is reached by no rule that isn't nested-only */
    HERRINGCART_TOO_DEAR = 9       /* all lists' cost is above 4,096 */
};

/* What the other calls answer, in the order in which the answers are tried: 8 stands between 4 and 5. 7 is not used: document 01
 * had it for a list at an eighth level, and a table that could start one is HERRINGCART_TOO_DEEP; that no call gives 7 is proved.
 * herringcart_panel has two answers more, below. */
enum herringcart_answer {
    HERRINGCART_DONE = 0,
    HERRINGCART_BAD_TABLE = 1,          /* the table has a reason */
    HERRINGCART_UNFIT_STATE = 2,        /* the state does not fit the table */
    HERRINGCART_WRONG_STATE_WORDS = 2,  /* the same number, of herringcart_make_fresh: the length is not the table's */
    HERRINGCART_SHORT_TRACE = 3,        /* trace_words is less than B */
    HERRINGCART_TRACE_FULL = 3,         /* the same number, of herringcart_play: fewer than B trace words are free */
    HERRINGCART_MALFORMED_EVENT = 4,    /* a field that must be 0 is not, or the kind is above 7 */
    HERRINGCART_BAD_OUTCOME = 8,        /* an outcome word is above 1, whether a call would read it or not */
    HERRINGCART_NO_SUCH_THING = 5,      /* no such port, source or network, or not one for this kind */
    HERRINGCART_OTHER_OWNER = 6         /* the thing is not the owner's */
};

/* What herringcart_panel alone answers, but for 11, which herringcart_list, herringcart_read and herringcart_read_log answer too. Its
 * answers are tried in the order 9, 1, 2, 11. */
enum herringcart_panel_answer {
    HERRINGCART_NO_OPERATOR = 9, /* the number is 0, the platform's, or above 15 */
    HERRINGCART_NO_ROOM = 11     /* the lines need more bytes than are lent; of herringcart_read, the table has more words */
};

/* What herringcart_read alone answers, but for 12, which herringcart_read_log answers too. Its answers are tried in the order 12, 11. */
enum herringcart_read_answer {
    HERRINGCART_BAD_LINE = 12 /* the text is no listing; *line says which line is the first bad one */
};

/* What herringcart_read_log answers beside 0, HERRINGCART_BAD_TABLE and HERRINGCART_NO_ROOM. The table and the list are tried first, in the
 * order 1, 13; then of each line, in the order 12, 14, 15, 11. */
enum herringcart_log_answer {
    HERRINGCART_MISSPELT = 12,       /* the line is not spelt as a line of a log is */
    HERRINGCART_BAD_INTERFACES = 13, /* the list is not as many different names as the table has networks, one a line */
    HERRINGCART_GOES_BACK = 14,      /* the line's time is before that of the line before it */
    HERRINGCART_NOT_LISTED = 15      /* the line's interface is none of the list's */
};

/* What herringcart_hold says of a supplier's recording, tried in the order 1, 2, 3, 4, 5; 0 where none of them holds. Beside it stands a
 * number, and a part of one of the two traces, which is empty but for 2, 3 and 4. */
enum herringcart_verdict {
    HERRINGCART_AS_ORDERED = 0,   /* trace and state are what our tables order; the number is 0 */
    HERRINGCART_REFUSED = 1,      /* our step refuses the event: the number is its answer */
    HERRINGCART_TRACES_PART = 2,  /* the number of the first word that differs, from 0; the supplier's words from there */
    HERRINGCART_THEIRS_STOPS = 3, /* the supplier's trace is a beginning of ours: its length; the rest of ours */
    HERRINGCART_OURS_STOPS = 4,   /* ours is a beginning of the supplier's: our length; the rest of the supplier's */
    HERRINGCART_STATES_PART = 5   /* the traces are the same: the first state word that differs, or the shorter state's length */
};

/* The kinds of events. */
enum herringcart_kind {
    HERRINGCART_TICK = 0,          /* owner, index and value 0 */
    HERRINGCART_MODE_REQUEST = 1,  /* of a mode port, with a value */
    HERRINGCART_EVENT_REQUEST = 2, /* of an event port */
    HERRINGCART_WAKEUP = 3,        /* of a source */
    HERRINGCART_WAKEUP_VALID = 4,  /* of a source */
    HERRINGCART_BUS_OFF = 5,       /* of a network */
    HERRINGCART_WAKEUP_CLEAR = 6,  /* of a source */
    HERRINGCART_HEARD = 7          /* of a network: traffic was sent or received */
};

/* How an outside call ends, as an outcome word says it. */
enum herringcart_outcome {
    HERRINGCART_GOOD = 0,
    HERRINGCART_FAILED = 1
};

/* The modes that a network is asked for, and what its port shows: these three, or that it recovers. */
enum herringcart_mode {
    HERRINGCART_NONE = 0,
    HERRINGCART_SILENT = 1,
    HERRINGCART_FULL = 2,
    HERRINGCART_RECOVER = 3 /* shown only */
};

/* The owner that is no operator. */
#define HERRINGCART_PLATFORM 0

/* An event word. Where a field is too large for its place the word is FFFFFFFF, which is answered with 4: no field is
 * cut, for that would name another thing. */
static inline uint32_t herringcart_event(uint32_t kind, uint32_t owner, uint32_t index, uint32_t value)
{
    if (kind > 15 || owner > 15 || index > 255 || value > 255)
        return UINT32_C(0xFFFFFFFF);
    return kind << 28 | owner << 24 | index << 16 | value << 8;
}

/* Gives the archive's version, major * 65536 + minor: HERRINGCART_VERSION_NUMBER of the header that belongs to it. */
uint32_t herringcart_version(void);

/* Checks a table. Gives HERRINGCART_ACCEPTED, or the first of the reasons that holds, in their order.
 *
 * Always writes *place, the number from 0 of the lowest word that breaks the rule, 0 for reasons 0 to 4 and 9;
 * and *bound, B, the trace words that each event must be lent, 0 for a refused table. */
uint32_t herringcart_check_table(const uint32_t *table, size_t table_words, size_t *place, uint32_t *bound);

/* Gives how many words a state of this table has, P+R+N+S. It reads the header alone, a missing word as 0, and so says
 * nothing of the table. */
size_t herringcart_state_words(const uint32_t *table, size_t table_words);

/* Makes a fresh state. Gives 0, and then every word of the state is written; 1 if the table has a reason; 2 if
 * state_words is not the table's: then nothing is written. */
uint32_t herringcart_make_fresh(const uint32_t *table, size_t table_words, uint32_t *state, size_t state_words);

/* Checks a state. Gives 0 if it fits the table, 1 if the table has a reason, 2 if it does not fit. */
uint32_t herringcart_check_state(const uint32_t *table, size_t table_words, const uint32_t *state, size_t state_words);

/* Takes one event. Gives the first answer from 1 to 8 that holds, in their order, or else 0: the event is done, the
 * state is the next one, and the first *count words of the trace are what was done; the later ones are unchanged.
 * Always writes *count and *visits, the expression words visited: both 0 for a refused event.
 *
 * outcomes says how the outside calls of this event end, each word HERRINGCART_GOOD or HERRINGCART_FAILED. In a table of
 * edition 2 every outside call that runs, with abort or without, takes the next word, in the order in which the calls run
 * over all lists of the event; past the last word every call is good. A failed call with abort stops the list that holds it:
 * its own trace word is the last of that list, what the list did before it stands, and an outer list goes on behind the item
 * that ran it. A table of edition 1 takes none. An event runs fewer than B outside calls, so more than B words are of no
 * use; but a word above 1 anywhere among them is HERRINGCART_BAD_OUTCOME, of a tick and in edition 1 too. */
uint32_t herringcart_take_event(const uint32_t *table, size_t table_words, uint32_t *state, size_t state_words,
                                uint32_t *trace, size_t trace_words, const uint32_t *outcomes, size_t outcome_words,
                                uint32_t event, size_t *count, uint32_t *visits);

/* Plays recorded events one after the other, as herringcart_take_event would take them one by one, each with what the ones before it
 * left of the trace and with no outcomes, so that every outside call is good; table and state are checked once. Gives what ended it: 0
 * if every event was taken; 1 or 2 if table or state is not in order, also where there are no events; or, before an event,
 * HERRINGCART_TRACE_FULL if fewer than B trace words are free, else 4, 5 or 6 if that event is refused. Always writes *taken, how many
 * events were taken: the event that ended it is events[*taken]; *count, how many words they wrote together, which stand at the
 * front of the trace, and the later ones are unchanged; and *visits, how many expression words they visited together, the sum of what
 * single calls report. The state is the one after the last event taken. With table or state not in order all three are 0. The sum is
 * modulo 2^64, so it is exact for up to 33,375,448,836,465 events, 2^64 / HERRINGCART_MOST_VISITS.
 *
 * A play that ends with HERRINGCART_TRACE_FULL is resumed from that event: call again with events + *taken, the state as it stands and the
 * trace to be written anew. With at least B words lent, each call takes an event or ends otherwise. */
uint32_t herringcart_play(const uint32_t *table, size_t table_words, uint32_t *state, size_t state_words, uint32_t *trace,
                          size_t trace_words, const uint32_t *events, size_t event_words, size_t *taken, size_t *count,
                          uint64_t *visits);

/* Shows one operator its panel. words are the newest step's trace words, those that its count covers: the event call's trace and
 * *count as it left them. A refused event wrote none, and before any event there are none: words_count is 0 then, and words any aligned
 * address but null. Whose step it was and whether the words are a trace at all is not looked at; any words will do.
 *
 * Gives 0, and then the lines stand at the front of lines, *bytes of them in all, and the bytes behind are unchanged. No 0 byte ends
 * them. Or the first of these that holds, in this order: HERRINGCART_NO_OPERATOR, the number is 0 or above 15; HERRINGCART_BAD_TABLE;
 * HERRINGCART_UNFIT_STATE; HERRINGCART_NO_ROOM, lines_bytes is less than the lines need. Then no byte of lines has changed. Always
 * writes *bytes: 0 if refused, and also where the operator has nothing to see, which is no refusal. HERRINGCART_PANEL_BYTES(words_count)
 * bytes of room are enough for every table.
 *
 * A line is a name, for a thing its number in the table, and the word in eight hex digits, and ends in a newline:
 *
 *         port 0 81400000
 *         network 0 80000000
 *         source 2 40000008
 *         trace F1000000
 *
 * First come the operator's ports, then its networks, then its sources, each by number, with their words of the state; then those of
 * the trace words that have the operator in their owner field, in the order in which they were handed in. Nothing else is shown: nothing
 * of a stranger; nothing of the platform, neither its things nor its trace words; and no rule's word, the operator's own neither. That
 * the lines hang on nothing else is proved: accepted tables of equal counts that give the operator the same numbered things, with fitting
 * states and traces that agree in the operator's words, give the same bytes. */
uint32_t herringcart_panel(uint32_t operator_number, const uint32_t *table, size_t table_words, const uint32_t *state,
                           size_t state_words, const uint32_t *words, size_t words_count, uint8_t *lines, size_t lines_bytes,
                           size_t *bytes);

/* Holds a supplier's recording of one event against ours. table, state, trace, outcomes and event are those of herringcart_take_event: our
 * own step is taken, and state, trace, *count and *visits end as behind that call. theirs are the trace words that the supplier's manager
 * wrote for the event, from the same state and with the same outcomes, and their_state the words of its state afterwards. Both are only
 * read; any words of any number will do, also none.
 *
 * Gives a verdict, enum herringcart_verdict: HERRINGCART_AS_ORDERED exactly if both are what our tables order, the trace word for word and
 * the state word for word, whoever wrote them. So what our own step writes is always as ordered. The traces are looked at first, and the
 * states only where the traces are the same. Always writes *number, the number beside the verdict; *rest, how many words the part has;
 * and *count and *visits, our step's, both 0 where it refuses: then theirs and their_state are not looked at.
 *
 * The part is never copied. It is the rest of one of the two traces from word *number on, and herringcart_part points to its first word:
 *
 *         HERRINGCART_TRACES_PART, HERRINGCART_OURS_STOPS   the *rest words theirs[*number] and on, up to the end of theirs
 *         HERRINGCART_THEIRS_STOPS                          the *rest words trace[*number] and on, up to word *count
 *         the others                                        empty: *rest is 0
 *
 * The part is there for as long as the array that it is a piece of: of the trace up to the next call that writes it. */
uint32_t herringcart_hold(const uint32_t *table, size_t table_words, uint32_t *state, size_t state_words, uint32_t *trace,
                          size_t trace_words, const uint32_t *outcomes, size_t outcome_words, uint32_t event,
                          const uint32_t *theirs, size_t their_words, const uint32_t *their_state, size_t their_state_words,
                          size_t *number, size_t *rest, size_t *count, uint32_t *visits);

/* The first word of the part that goes with a verdict, by its number, the trace and the supplier's words as they were lent. Where the
 * part is empty it is theirs: never null, so that it can be handed on with the length *rest, as a panel's words for one. */
static inline const uint32_t *herringcart_part(uint32_t verdict, size_t number, const uint32_t *trace, const uint32_t *theirs)
{
    if (verdict == HERRINGCART_THEIRS_STOPS)
        return trace + number;
    if (verdict == HERRINGCART_TRACES_PART || verdict == HERRINGCART_OURS_STOPS)
        return theirs + number;
    return theirs;
}

/* Lists a table as text. Gives 0, and then the listing stands at the front of lines, *bytes of them in all, and the bytes behind are
 * unchanged. No 0 byte ends it. Or the first of these that holds: reason 1, 2, 3 or 4 of enum herringcart_reason, HERRINGCART_TOO_SHORT to
 * HERRINGCART_WRONG_LENGTH, for then it is not clear which word is what; HERRINGCART_NO_ROOM, lines_bytes is less than the listing has.
 * Then no byte of lines has changed. Always writes *bytes: 0 if refused. A table with another reason is listed. HERRINGCART_LISTING_BYTES
 * bytes of room are enough for every table.
 *
 * Each word of the table is a line: the name of its section, then all its fields in decimal, in the order of docs/TABLES.md, those that are
 * 0 too, parted by single spaces, and a newline. The marked table:
 *
 *         header 1 2 1 0
 *         header 1 1
 *         header 1 2
 *         port 0 0 0 1 0 0
 *         port 0 1 0 1 0 0
 *         network 1 1 2 0
 *         network 3 10 5
 *         expression 0 0 5 0
 *         rule 1 0 0 0 0 255
 *         list 1 1 7 0 2
 *         item 4 0 2
 *         item 0 0 4660
 *
 * The other name is source. The header has three lines, a network two. An expression of kinds 4 to 8 has its kind and its two sides, of any
 * other kind its kind, port, value and the last twelve bits. An item has three fields, in edition 2 four, of which the second is abort. No
 * two tables have the same listing. */
uint32_t herringcart_list(const uint32_t *table, size_t table_words, uint8_t *lines, size_t lines_bytes, size_t *bytes);

/* Reads a listing back. Gives 0, and then its table's words stand at the front of words, *count of them in all, and the words behind are
 * unchanged: what herringcart_list lays for them is the text, byte for byte. Or the first of these that holds: HERRINGCART_BAD_LINE, the
 * text is no listing; HERRINGCART_NO_ROOM, words_room is less than the table has. Then no word has changed. Always writes *count, 0 if
 * refused; and *line, the number of the first bad line with HERRINGCART_BAD_LINE, else 0. HERRINGCART_TABLE_WORDS words of room are enough
 * for every listing. That a listing can be read says nothing of reasons 5 to 10: herringcart_check_table says whether the table is accepted.
 *
 * It takes listings and no other spelling: no leading zero, no sign, no second space, no tab, no carriage return, no capital, no comment, no
 * empty line, no field that is too big for its width, no edition and no count that reasons 2 and 3 refuse, no line too few or too many, and
 * a newline behind the last line too. No 0 byte ends the text: one is a byte as any other, and bad.
 *
 * Lines count from 1. The first bad line is the first at which no listing goes on: the lines before it are the first lines of some listing,
 * and with it they are none's. So a missing line has the number it would have had, an extra one the last plus 1, and a count that does not
 * fit what follows shows at the first line with the wrong name. */
uint32_t herringcart_read(const uint8_t *text, size_t text_bytes, uint32_t *words, size_t words_room, size_t *count, size_t *line);

/* Turns a log of the common Linux CAN tools (candump -L) into event words. A line of it is a time in round brackets, 1 to 10 digits, a
 * point and six digits; a space; an interface's name, 1 to 15 bytes other than space and newline; a space; an identifier of three or eight
 * hex digits; a hash sign; up to eight pairs of hex digits; and a newline. Hex digits stand in either case, and nothing else stands in a line:
 *
 *         (1700000000.250037) can0 0CF00400#001F3E5D7C9BBAD9
 *         (1700000000.310037) can1 20000040#0000000000000000
 *
 * interfaces names the networks' interfaces in the table's order, each with a newline behind it, the last too: "can0\ncan1\n" for a table of
 * two networks, no byte for one of none.
 *
 * An identifier of eight digits with 20000000 (an error frame) and 40 (bus-off) gives a bus-off of the interface's network under that
 * network's owner, herringcart_event(HERRINGCART_BUS_OFF, owner, network, 0), whatever its other bits are. Every other frame gives no event.
 * Before what it gives, each line gives the ticks for each whole 10 milliseconds that have passed since the log's first line and are not yet
 * given. The events are for herringcart_play or herringcart_take_event.
 *
 * Gives 0, every line is read; or what refused it: HERRINGCART_BAD_TABLE or HERRINGCART_BAD_INTERFACES, and then nothing is read; or, of the
 * first line that is refused, the first of these that holds: HERRINGCART_MISSPELT, HERRINGCART_GOES_BACK (equal times stand),
 * HERRINGCART_NOT_LISTED, and HERRINGCART_NO_ROOM, out has no room for the next event. The first three give nothing of that line; with
 * HERRINGCART_NO_ROOM those of its ticks stand that there was room for. A full out is refused only where an event is due. Always writes *line,
 * the number of the refused line from 1, 0 where no line is; *events, how many words stand at the front of out, and the words behind are
 * unchanged; *bytes, how many bytes the lines read have; and the cursor. The events written before a refusal stay.
 *
 * The cursor says how far the log is read, and is kept by the caller between calls. Before a log's first line all four are 0:
 *
 *         lines   how many lines are read
 *         first   the first line's time, in microseconds; of no meaning while lines is 0
 *         last    the time of the last line read, likewise
 *         given   how many ticks are given
 *
 * A log is so read in as many calls as is convenient. After 0 the next part of the log goes on with the cursor as it stands: a part must end
 * behind a newline, for a line without one is misspelt. After HERRINGCART_NO_ROOM, take the *events words out and call again with
 * log + *bytes, log_bytes - *bytes and the cursor as it stands, in the same out or another: the line is read again, and gives what it has not
 * given. With room for one event each call gets on. Events, refusals and line numbers are those of the log read in one call in room enough.
 * After another refusal *bytes and the cursor stand before the refused line; what a caller makes of such a line is its own affair.
 *
 * A cursor of any four numbers is taken. Times are counted in 64 bits, and no sum in them wraps; lines stops at the largest number there is. */
uint32_t herringcart_read_log(const uint32_t *table, size_t table_words, const uint8_t *interfaces, size_t interfaces_bytes,
                              const uint8_t *log, size_t log_bytes, uint64_t *lines, uint64_t *first, uint64_t *last, uint64_t *given,
                              uint32_t *out, size_t out_words, uint64_t *line, size_t *events, size_t *bytes);

/* The four numbers of a cursor in one place, for whoever likes them so:
 *
 *         struct herringcart_cursor at = HERRINGCART_LOG_START;
 *         herringcart_read_log(.., &at.lines, &at.first, &at.last, &at.given, ..) */
struct herringcart_cursor {
    uint64_t lines, first, last, given;
};

#define HERRINGCART_LOG_START {0, 0, 0, 0}

#ifdef __cplusplus
}
#endif

#endif
