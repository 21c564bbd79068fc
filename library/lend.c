/* `./herringcart run` with outcomes lent; `lend --help` says how it is used. */
#include "herringcart.h"

#include <errno.h>
#include <inttypes.h>
#include <stdio.h>
#include <stdlib.h>
#include <string.h>

static const char usage[] =
    "lend OUTCOMES TABLE EVENTS\n"
    "\n"
    "Prints what `./herringcart run TABLE EVENTS` prints, with outcomes lent to the event calls, which that command does not do.\n"
    "\n"
    "OUTCOMES is a file of words, the high byte first: for each event in order the number of outcome words that its call lends,\n"
    "then these words. Where the file ends, no more are lent; bytes past the last whole word of a file are ignored.\n"
    "\n"
    "Status: 0, for a table with a reason too; 2 where a file cannot be read or the output not be written, where the words are\n"
    "wrong, or where the archive is not of this header's version.\n";

struct words {
    uint32_t *at;
    size_t length;
};

static void trouble(const char *what, const char *why)
{
    fprintf(stderr, "lend: %s: %s\n", what, why);
    exit(2);
}

static struct words read_words(const char *path)
{
    struct words file = {NULL, 0};
    size_t room = 0;
    unsigned char bytes[4];
    FILE *in = fopen(path, "rb");
    if (in == NULL)
        trouble(path, strerror(errno));
    for (;; file.length++) {
        if (file.length == room) {
            room = room == 0 ? HERRINGCART_TABLE_WORDS + 1 : 2 * room;
            file.at = realloc(file.at, room * sizeof *file.at);
            if (file.at == NULL)
                trouble(path, "no memory for it");
        }
        if (fread(bytes, 1, sizeof bytes, in) < sizeof bytes)
            break;
        file.at[file.length] = (uint32_t)bytes[0] << 24 | (uint32_t)bytes[1] << 16 | (uint32_t)bytes[2] << 8 | bytes[3];
    }
    if (ferror(in))
        trouble(path, strerror(errno));
    fclose(in);
    return file;
}

/* Takes the next event's outcomes from the front of the file's. */
static struct words next_outcomes(struct words *file)
{
    struct words lent = {file->at, 0};
    if (file->length > 0) {
        lent.at++;
        file->length--;
        lent.length = *file->at < file->length ? *file->at : file->length;
        file->at = lent.at + lent.length;
        file->length -= lent.length;
    }
    return lent;
}

static void print_words(const uint32_t *words, size_t length)
{
    for (size_t i = 0; i < length; i++)
        printf("%08" PRIX32 "\n", words[i]);
}

static void take_all(struct words table, struct words events, struct words outcomes, uint32_t bound)
{
    static uint32_t state[HERRINGCART_STATE_WORDS], trace[HERRINGCART_TRACE_WORDS];
    size_t length = herringcart_state_words(table.at, table.length), count;
    uint32_t visits; /* always written, though nothing is printed of them */
    herringcart_make_fresh(table.at, table.length, state, length);
    for (size_t i = 0; i < events.length; i++) {
        struct words lent = next_outcomes(&outcomes);
        printf("%" PRIu32 "\n", herringcart_take_event(table.at, table.length, state, length, trace, bound, lent.at, lent.length,
                                                       events.at[i], &count, &visits));
        print_words(state, length);
        print_words(trace, count);
    }
}

int main(int words, char **word)
{
    size_t place;
    uint32_t bound, reason;
    if (words == 2 && (strcmp(word[1], "--help") == 0 || strcmp(word[1], "-h") == 0)) {
        if (fputs(usage, stdout) < 0 || fflush(stdout) != 0)
            trouble("standard output", strerror(errno));
        return 0;
    }
    if (words != 4)
        trouble("three words are needed", "lend OUTCOMES TABLE EVENTS; lend --help says more");
    if (herringcart_version() != HERRINGCART_VERSION_NUMBER)
        trouble("the archive", "it is not of version " HERRINGCART_VERSION ", which the header is of");
    struct words outcomes = read_words(word[1]), table = read_words(word[2]), events = read_words(word[3]);
    reason = herringcart_check_table(table.at, table.length, &place, &bound);
    if (reason == HERRINGCART_ACCEPTED)
        take_all(table, events, outcomes, bound);
    else
        printf("%" PRIu32 "\n%zu\n", reason, place);
    if (fflush(stdout) != 0)
        trouble("standard output", strerror(errno));
    return 0;
}
