/*
 * Quotes a table text with every field k, by the quotation of Mipaldoz; no listing is written. Writes a line for each
 * field on standard output: the field, products, literals, and the length of the listing in bytes; or, where the text
 * may not have it, the field, `refused`, and why. The last line is `cheapest` and the field that costs least for the
 * text's family, the first of equal ones. A text that is refused as it stands is not quoted: standard output has the
 * line `refused`, number, line, and standard error what the number means.
 *
 *     quote FILE
 *
 * The exit status is 0 where the text was quoted, 1 where it was refused, and 2 for a wrong command line or trouble
 * with a file.
 *
 * To build it, from the root of the repository:
 *
 *     (cd crates/mipaldoz && rt lib); mkdir -p target
 *     gcc -std=c99 -Wall -Wextra -Iinclude examples/quote.c crates/mipaldoz/out/libmipaldoz.a -o target/quote
 */
#include "mipaldoz.h"

#include <inttypes.h>
#include <stdio.h>
#include <stdlib.h>
#include <string.h>

enum status { QUOTED = 0, REFUSED = 1, TROUBLE = 2 };

/* How many bytes of the file are judged, the same number as in the program `rmquote`; all that can pass is shorter. */
#define JUDGED_BYTES 8192

/* The fields k, but for `-`, which means one of them. Every text that is accepted may have the first. */
static const char *const fields[] = {"0", "1", "2", "3", "f0", "f1", "f2", "K"};
#define FIELDS (sizeof fields / sizeof *fields)

/* Says what went wrong with a file, and ends the program. */
static void stop(const char *name)
{
    perror(name);
    exit(TROUBLE);
}

/* Quotes an accepted text with this field k: it stands from the last tab of the first line to the end of the line. */
static struct mipaldoz_quote_result quote_with(const char *field, const uint8_t *text, size_t length)
{
    uint8_t other[JUDGED_BYTES];
    size_t size = strlen(field), end = 0, start;

    while (text[end] != '\n')
        end++;
    start = end;
    while (text[start - 1] != '\t')
        start--;
    memcpy(other, text, start);
    memcpy(other + start, field, size);
    memcpy(other + start + size, text + end, length - end);
    return mipaldoz_quote_call(other, start + size + length - end);
}

/* Whether the first costs less than the second for parts of this family. */
static int costs_less(const struct mipaldoz_quote_result *a, const struct mipaldoz_quote_result *b, uint64_t family)
{
    uint64_t charge_a = 4 * a->products + a->literals, charge_b = 4 * b->products + b->literals;

    if (family == MIPALDOZ_FAMILY_TWO && charge_a != charge_b)
        return charge_a < charge_b;
    return a->products != b->products ? a->products < b->products : a->literals < b->literals;
}

/* Quotes the text of this name, and writes the lines or the refusal. */
static enum status quote(const char *name, const uint8_t *text, size_t length)
{
    uint8_t table[MIPALDOZ_TABLE_BYTES];
    struct mipaldoz_read_result design = mipaldoz_read_call(text, length, table, sizeof table);
    struct mipaldoz_quote_result quoted[FIELDS];
    size_t f, cheapest = 0;

    if (design.number != MIPALDOZ_CARRIED_OUT) {
        printf("refused\t%" PRIu64 "\t%" PRIu64 "\n", design.number, design.line);
        fprintf(stderr, "%s, line %" PRIu64 ": %s\n", name, design.line, mipaldoz_refusal_words(design.number));
        return REFUSED;
    }
    for (f = 0; f < FIELDS; f++) {
        struct mipaldoz_quote_result *q = &quoted[f];

        *q = quote_with(fields[f], text, length);
        if (q->number != MIPALDOZ_CARRIED_OUT) {
            printf("%s\trefused\t%s\n", fields[f], mipaldoz_refusal_words(q->number));
            continue;
        }
        printf("%s\t%" PRIu64 "\t%" PRIu64 "\t%" PRIu64 "\n", fields[f], q->products, q->literals, q->length);
        if (costs_less(q, &quoted[cheapest], design.family))
            cheapest = f;
    }
    printf("cheapest\t%s\n", fields[cheapest]);
    return QUOTED;
}

int main(int count, char **words)
{
    static uint8_t text[JUDGED_BYTES];
    FILE *file;
    size_t length;
    enum status status;

    if (count != 2) {
        fprintf(stderr, "usage: %s FILE\n", words[0]);
        return TROUBLE;
    }
    file = fopen(words[1], "rb");
    if (file == NULL)
        stop(words[1]);
    length = fread(text, 1, sizeof text, file);
    if (ferror(file))
        stop(words[1]);
    fclose(file);

    status = quote(words[1], text, length);
    if (fflush(stdout) != 0 || ferror(stdout))
        stop("standard output");
    return status;
}
