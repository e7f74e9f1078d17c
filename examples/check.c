/*
 * Checks a listing beside its table text by the fitter's check of Mipaldoz. Writes what `rmcheck` writes on standard
 * output: `same`; `differs`, point; `not of the class`; or `refused`, number, line, and then on standard error what the
 * number means and in which file.
 *
 *     check TABLE LISTING
 *
 * The exit status is 0 for `same`, 1 for the other three, and 2 for a wrong command line or trouble with a file.
 *
 * To build it, from the root of the repository:
 *
 *     (cd crates/mipaldoz && rt lib); mkdir -p target
 *     gcc -std=c99 -Wall -Wextra -Iinclude examples/check.c crates/mipaldoz/out/libmipaldoz.a -o target/check
 */
#include "mipaldoz.h"

#include <inttypes.h>
#include <stdio.h>
#include <stdlib.h>

enum status { FUSE = 0, DO_NOT_FUSE = 1, TROUBLE = 2 };

/* How many bytes of each file are judged, the same number as in the program `rmcheck`; all that can pass is shorter. */
#define JUDGED_BYTES 8192

struct source {
    const char *name;
    uint8_t bytes[JUDGED_BYTES];
    size_t length;
};

/* Says what went wrong with a file, and ends the program. */
static void stop(const char *name)
{
    perror(name);
    exit(TROUBLE);
}

/* Reads the first bytes of the file of this name. */
static void read_source(const char *name, struct source *source)
{
    FILE *file = fopen(name, "rb");

    if (file == NULL)
        stop(name);
    source->name = name;
    source->length = fread(source->bytes, 1, sizeof source->bytes, file);
    if (ferror(file))
        stop(name);
    fclose(file);
}

/* Checks the listing, and writes the answer. */
static enum status check(const struct source *table, const struct source *listing)
{
    struct mipaldoz_check_result result =
        mipaldoz_check_call(table->bytes, table->length, listing->bytes, listing->length);

    if (result.number != MIPALDOZ_CARRIED_OUT) {
        /* The table text is judged first: its refusals are 1 to 6, those of the listing 11 and 12. */
        const char *name = result.number <= MIPALDOZ_BAD_END ? table->name : listing->name;

        printf("refused\t%" PRIu64 "\t%" PRIu64 "\n", result.number, result.line);
        fprintf(stderr, "%s, line %" PRIu64 ": %s\n", name, result.line, mipaldoz_refusal_words(result.number));
        return DO_NOT_FUSE;
    }
    switch (result.outcome) {
    case MIPALDOZ_SAME:
        printf("same\n");
        return FUSE;
    case MIPALDOZ_DIFFERS:
        printf("differs\t%" PRIu64 "\n", result.point);
        return DO_NOT_FUSE;
    default:
        printf("not of the class\n");
        return DO_NOT_FUSE;
    }
}

int main(int count, char **words)
{
    static struct source table, listing;
    enum status status;

    if (count != 3) {
        fprintf(stderr, "usage: %s TABLE LISTING\n", words[0]);
        return TROUBLE;
    }
    read_source(words[1], &table);
    read_source(words[2], &listing);
    status = check(&table, &listing);
    if (fflush(stdout) != 0 || ferror(stdout))
        stop("standard output");
    return status;
}
