/*
 * Compiles a table text by the text call of Mipaldoz. Writes its listing on standard output; or there the line
 * `refused`, number, line, and on standard error what the number means.
 *
 *     compile [FILE]       reads FILE, or standard input where no file is named
 *
 * The exit status is 0 where a listing was written, 1 where the text was refused, and 2 for a wrong command line or
 * trouble with a file.
 *
 * To build it, from the root of the repository:
 *
 *     (cd crates/mipaldoz && rt lib); mkdir -p target
 *     gcc -std=c99 -Wall -Wextra -Iinclude examples/compile.c crates/mipaldoz/out/libmipaldoz.a -o target/compile
 */
#include "mipaldoz.h"

#include <inttypes.h>
#include <stdio.h>
#include <stdlib.h>

enum status { LISTED = 0, REFUSED = 1, TROUBLE = 2 };

/*
 * How many bytes of a text are judged, the same number as in the program `rmform`. It is more than
 * MIPALDOZ_LONGEST_TEXT, so a text that does not fit is refused by the bytes that do.
 */
#define JUDGED_BYTES 8192

/* Says what went wrong with a file, and ends the program. */
static void stop(const char *name)
{
    perror(name);
    exit(TROUBLE);
}

/* Compiles the text of this name, and writes the listing or the refusal. */
static enum status compile(const char *name, const uint8_t *text, size_t length)
{
    uint8_t listing[MIPALDOZ_LONGEST_LISTING]; /* long enough for every listing, so refusal 10 does not occur */
    struct mipaldoz_compile_result result = mipaldoz_compile_call(text, length, listing, sizeof listing);

    if (result.number != MIPALDOZ_CARRIED_OUT) {
        printf("refused\t%" PRIu64 "\t%" PRIu64 "\n", result.number, result.line);
        fprintf(stderr, "%s, line %" PRIu64 ": %s\n", name, result.line, mipaldoz_refusal_words(result.number));
        return REFUSED;
    }
    fwrite(listing, 1, (size_t)result.length, stdout);
    return LISTED;
}

int main(int count, char **words)
{
    static uint8_t text[JUDGED_BYTES];
    const char *name = "standard input";
    FILE *file = stdin;
    size_t length;
    enum status status;

    if (count > 2) {
        fprintf(stderr, "usage: %s [FILE]\n", words[0]);
        return TROUBLE;
    }
    if (count == 2) {
        name = words[1];
        file = fopen(name, "rb");
        if (file == NULL)
            stop(name);
    }
    length = fread(text, 1, sizeof text, file);
    if (ferror(file))
        stop(name);
    fclose(file);

    status = compile(name, text, length);
    if (fflush(stdout) != 0 || ferror(stdout))
        stop("standard output");
    return status;
}
