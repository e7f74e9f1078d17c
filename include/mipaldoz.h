/*
 * The calls of Mipaldoz for programs in C (C99) and C++ (C++98): both transforms, the minimising call, the reading
 * call, the text call, the quotation of a table text and the fitter's check of a listing.
 *
 *     (cd crates/mipaldoz && rt lib)                                 makes crates/mipaldoz/out/libmipaldoz.a
 *     cc -Iinclude program.c crates/mipaldoz/out/libmipaldoz.a       links it; no other library is needed
 *
 * docs/CALLS.md shows how to build and to call, docs/GUIDE.md says what a table text, a listing and their numbers are,
 * docs/SPECIFICATION.md gives the exact rules, and docs/PROMISES.md what is proved of each call. examples/compile.c,
 * examples/quote.c and examples/check.c are whole programs.
 *
 * Buffers. A buffer is passed as a pointer to its first byte and then its length in bytes. The caller sees to three
 * things, which no call can check:
 *   - the length is true: that many bytes may be read there and, where the pointer is not to const, written;
 *   - no two buffers of one call overlap, and none overlaps `answer`;
 *   - no pointer is null, also where the length is 0.
 * Everything else is judged by the call: every number n, m, k and w, every length and every byte may be passed.
 *
 * Answers. The answer of a call is a few numbers. The first is 0 where the call was carried out; else it is the number
 * of the refusal, the second is its line, and the rest is 0. Lines count from 1; the line is 0 where no text was lent,
 * and for the refusals 7 to 10. For 11 and 12 it is the line in the listing.
 *
 * Two forms of each call. mipaldoz_compile, and so each function that the library exports, writes its answer into the
 * array `answer`, all of it, whatever it held; enum mipaldoz_answer says which number is which. mipaldoz_compile_call,
 * and so each inline function at the end of this header, takes the same but `answer`, and returns a struct with a
 * member for each number.
 *
 * Under a refusal no byte of a lent buffer changes. `answer` is the return value and not such a buffer: it changes.
 *
 * The calls take no memory from the heap, keep nothing from one call to the next, read and write no file, and end on
 * every input. Several threads may call them at the same time, each with buffers of its own.
 */
#ifndef MIPALDOZ_H
#define MIPALDOZ_H

#include <stddef.h>
#include <stdint.h>

#ifdef __cplusplus
extern "C" {
#endif

/* The limits. */
#define MIPALDOZ_MOST_INPUTS 8        /* n is 1 to 8 */
#define MIPALDOZ_MOST_OUTPUTS 8       /* m is 1 to 8 */
#define MIPALDOZ_MOST_MIXED 3         /* k is 0 to 3, and at most n; with an `f` field it is 0 to 2 */
#define MIPALDOZ_TABLE_BYTES 256      /* the table that the reading call fills; also 2^n at the largest n */
#define MIPALDOZ_LONGEST_LISTING 5919 /* bytes: an output buffer of this length is never refused */
#define MIPALDOZ_LONGEST_TEXT 4004    /* bytes: a longer text is never accepted */

/* How many numbers the answer of each call has. */
#define MIPALDOZ_FORWARD_ANSWER 2
#define MIPALDOZ_BACKWARD_ANSWER 2
#define MIPALDOZ_MINIMISE_ANSWER 7
#define MIPALDOZ_READ_ANSWER 7
#define MIPALDOZ_COMPILE_ANSWER 3
#define MIPALDOZ_QUOTE_ANSWER 5
#define MIPALDOZ_CHECK_ANSWER 4

/* Which number of an answer is which. Those of different calls share places: the structs below keep them apart. */
enum mipaldoz_answer {
    /* of every answer */
    MIPALDOZ_NUMBER = 0, /* 0, or the number of the refusal: enum mipaldoz_refusal */
    MIPALDOZ_LINE = 1,   /* the refusal's line, or 0 */
    /* of mipaldoz_minimise */
    MIPALDOZ_MIXED = 2,    /* M, the set of the k mixed inputs, x1 at bit 0 */
    MIPALDOZ_FIXED = 3,    /* i, the fixed polarity: an input outside M whose bit is set is complemented */
    MIPALDOZ_PRODUCTS = 4, /* the number of products */
    MIPALDOZ_LITERALS = 5, /* the number of literals in them */
    MIPALDOZ_INVERTED = 6, /* the inversion mask, output 0 at bit 0: an output whose bit is set is inverted */
    /* of mipaldoz_read */
    MIPALDOZ_INPUTS = 2,       /* n */
    MIPALDOZ_OUTPUTS = 3,      /* m */
    MIPALDOZ_MIXED_INPUTS = 4, /* k; where the text has `-` 2, or 1 where n is 1; and 0 where it has `K` */
    MIPALDOZ_KIND = 5,         /* the kind of k: enum mipaldoz_kind; 0 under a refusal */
    MIPALDOZ_FAMILY = 6,       /* the family of parts: enum mipaldoz_family; 0 under a refusal */
    /* of mipaldoz_compile */
    MIPALDOZ_LENGTH = 2, /* the length of the listing, in bytes */
    /* of mipaldoz_quote */
    MIPALDOZ_QUOTE_PRODUCTS = 2, /* the number of products */
    MIPALDOZ_QUOTE_LITERALS = 3, /* the number of literals in them */
    MIPALDOZ_QUOTE_LENGTH = 4,   /* the length of the listing, in bytes */
    /* of mipaldoz_check */
    MIPALDOZ_OUTCOME = 2, /* what is said of the listing: enum mipaldoz_outcome; 0 under a refusal */
    MIPALDOZ_POINT = 3    /* the lowest point that differs; 0 where the outcome is another */
};

/* The kinds of k. */
enum mipaldoz_kind {
    MIPALDOZ_KIND_BLOCK = 1,     /* a number of mixed inputs: the text has a digit */
    MIPALDOZ_KIND_KRONECKER = 2, /* the text has `K`: Kronecker expansions */
    MIPALDOZ_KIND_FREE = 3       /* a number of mixed inputs of the free class: the text has `f0`, `f1`, `f2` or `-` */
};

/* The families of parts. */
enum mipaldoz_family {
    MIPALDOZ_FAMILY_ONE = 1, /* the text begins with `table`: fewest products, then fewest literals */
    MIPALDOZ_FAMILY_TWO = 2  /* it begins with `table2`: least charge, 4 x products + literals, then fewest products */
};

/* What the check says of a listing that is not refused. */
enum mipaldoz_outcome {
    MIPALDOZ_SAME = 1,        /* it is a member's listing, and gives every output at every point, after the inverters */
    MIPALDOZ_DIFFERS = 2,     /* its cubes are a member's, and at some point it gives other outputs than the table */
    MIPALDOZ_NOT_OF_CLASS = 3 /* no member with its M and i prints its cubes */
};

/* Why a call declines. */
enum mipaldoz_refusal {
    MIPALDOZ_CARRIED_OUT = 0,
    MIPALDOZ_BAD_LINE = 1,      /* a line of the text breaks its grammar, as `K` with `table2` does */
    MIPALDOZ_BAD_INPUTS = 2,    /* n is not 1 to 8 */
    MIPALDOZ_BAD_OUTPUTS = 3,   /* m is not 1 to 8 */
    MIPALDOZ_BAD_MIXED = 4,     /* k is a number above 3, with an `f` field above 2, or above n */
    MIPALDOZ_BAD_POINT = 5,     /* a point is 2^n or more, or not above the one before */
    MIPALDOZ_BAD_END = 6,       /* the text stops where a line should begin and no `end` line has come, or bytes
                                   follow that line */
    MIPALDOZ_BAD_POLARITY = 7,  /* w is 2^n or more */
    MIPALDOZ_BAD_LENGTH = 8,    /* a buffer has another length than its call states */
    MIPALDOZ_BAD_BYTE = 9,      /* a byte of the table or of the coefficients has a bit at m or above set */
    MIPALDOZ_SHORT_OUTPUT = 10, /* the output buffer is shorter than the listing */
    MIPALDOZ_BAD_LISTING = 11,  /* a line of the listing is broken, as where line 2 is no `inv` line, its t is not above
                                   the one before, or the listing ends wrongly */
    MIPALDOZ_OTHER_LISTING = 12 /* the listing's family, n, m or k is not the table's, or its counts are not those of
                                   its lines; beside a `K` table, its first line is a `form` or `form2` line */
};

/*
 * Takes a table and fills its Reed-Muller coefficients under the polarity w: byte t holds the coefficient of term t,
 * bit o for output o.
 *
 *   n, m, w        inputs, outputs, and the polarity: an input whose bit is set is complemented, x1 at bit 0
 *   table          2^n bytes: bit o of byte p is output o at point p, whose bit 0 is x1; bits m to 7 are 0
 *   coefficients   2^n bytes, all filled; bits m to 7 are 0
 *   answer         number, line
 *
 * Refusals, the first that applies, with line 0: 2 (n), 3 (m), 7 (w), 8 (the length of `table` or of `coefficients`),
 * 9 (a byte of `table`).
 */
void mipaldoz_forward(size_t n, size_t m, size_t w,
                      const uint8_t *table, size_t table_length,
                      uint8_t *coefficients, size_t coefficients_length,
                      uint64_t answer[MIPALDOZ_FORWARD_ANSWER]);

/*
 * Takes coefficients under the polarity w and fills the table that they give. It is the inverse of mipaldoz_forward
 * under the same w.
 *
 *   n, m, w        as above
 *   coefficients   2^n bytes; bits m to 7 are 0
 *   table          2^n bytes, all filled; bits m to 7 are 0
 *   answer         number, line
 *
 * Refusals, the first that applies, with line 0: 2 (n), 3 (m), 7 (w), 8 (the length of `coefficients` or of `table`),
 * 9 (a byte of `coefficients`).
 */
void mipaldoz_backward(size_t n, size_t m, size_t w,
                       const uint8_t *coefficients, size_t coefficients_length,
                       uint8_t *table, size_t table_length,
                       uint64_t answer[MIPALDOZ_BACKWARD_ANSWER]);

/*
 * Takes a table and finds the member of the class with k mixed inputs and the inversion mask that give it with fewest
 * products, then fewest literals, then the least mask, then least M, then least i, then in each block the least block
 * polarity. An output is the exclusive OR of its terms, then inverted where the mask has its bit: inverters are free.
 * This is the order of family one; a table of family two is minimised by mipaldoz_compile, and so is the free class.
 *
 *   n, m, k        inputs, outputs, mixed inputs
 *   table          2^n bytes: bit o of byte p is output o at point p, whose bit 0 is x1; bits m to 7 are 0
 *   coefficients   2^n bytes, all filled: byte t holds the coefficient of term t, 0 where t is no product. Byte 0, of
 *                  the constant 1, is always 0: the constant of an output is its inverter
 *   blocks         2^(n - k) bytes, all filled: byte j is the polarity of block j over the inputs of M. Blocks are
 *                  numbered by the bits at the inputs outside M, closed up, lowest first; a block polarity has the bits
 *                  at the inputs of M, closed up likewise
 *   answer         number, line, M, i, products, literals, the inversion mask
 *
 * Refusals, the first that applies, with line 0: 2 (n), 3 (m), 4 (k), 8 (the length of `table`, `coefficients` or
 * `blocks`), 9 (a byte of `table`).
 */
void mipaldoz_minimise(size_t n, size_t m, size_t k,
                       const uint8_t *table, size_t table_length,
                       uint8_t *coefficients, size_t coefficients_length,
                       uint8_t *blocks, size_t blocks_length,
                       uint64_t answer[MIPALDOZ_MINIMISE_ANSWER]);

/*
 * Reads a table text and fills its table.
 *
 *   text           any bytes, any length; no zero byte ends it
 *   table          256 bytes (MIPALDOZ_TABLE_BYTES) whatever n is, all filled: the table, then 0 from 2^n on
 *   answer         number, line, n, m, k, the kind of k (enum mipaldoz_kind), the family (enum mipaldoz_family)
 *
 * Refusals: first the text is judged line by line, and its first bad line is the line of the refusal. On line 1 the
 * order is 1, 2, 3, 4. `K` for k is for texts that begin with `table`, and 4 cannot apply to it; with `table2` it is 1,
 * whatever n and m are. On a later line 1 comes before 5. The line of 6 is the line that was expected, or the one after
 * `end`. A text that is accepted is then refused by 8, line 0, where `table` has another length.
 */
void mipaldoz_read(const uint8_t *text, size_t text_length,
                   uint8_t *table, size_t table_length,
                   uint64_t answer[MIPALDOZ_READ_ANSWER]);

/*
 * Reads a table text, finds the cheapest expansion and writes its listing into the front of `output`. Bytes past the
 * listing keep what they held, and no zero byte is written after it. The text says which expansion is taken:
 *   - `table`: fewest products, then fewest literals. Where k is a digit it is the one that mipaldoz_minimise finds.
 *     The listing begins with `form`;
 *   - `table2`: least charge, 4 x products + literals, then fewest products. The listing begins with `form2`;
 *   - for both, equal costs go to the least mask, then least M, then least i, then in each block the least block
 *     polarity. The second line of the listing is `inv` and the mask, a character for each output from output 0 on;
 *   - an `f` field, or `-`, which means `f2`, or `f1` where n is 1: each term has its own polarity over M, in the place
 *     of one for its block, and after i comes the least polarity of term 0, 1, and so on. The listing has the `f`
 *     field;
 *   - `table` with `K`: the cheapest Kronecker expansion, by fewest products, then fewest literals, then the letters
 *     that come first from xn down, S before P before N. The listing begins with `kron` and has no inverters.
 *
 *   text           any bytes, any length; no zero byte ends it
 *   output         as long as the listing or longer; MIPALDOZ_LONGEST_LISTING bytes are enough for every text
 *   answer         number, line, the length of the listing
 *
 * Refusals: the text as in mipaldoz_read, 1 to 6 with the line. A text that is accepted is then refused by 10, line 0,
 * where `output` is shorter than its listing; a length of exactly the listing's is enough.
 */
void mipaldoz_compile(const uint8_t *text, size_t text_length,
                      uint8_t *output, size_t output_length,
                      uint64_t answer[MIPALDOZ_COMPILE_ANSWER]);

/*
 * Reads a table text and says what its listing costs and how long it is. The text is only read, no other buffer is
 * lent, and no listing is written.
 *
 *   text           any bytes, any length; no zero byte ends it
 *   answer         number, line, products, literals, the length of the listing
 *
 * The numbers are those of the listing that mipaldoz_compile writes for the same text, whatever its k and its family:
 * products and literals are the counts on its first line, and the length is that of the whole listing in bytes, its
 * `end` line included. So the length is exactly the room that mipaldoz_compile needs: an `output` of this length is
 * enough there, and one byte less is refused by 10.
 *
 * Refusals: the text as in mipaldoz_read, 1 to 6 with the line. With no buffer but the text, 8 and 10 never occur.
 */
void mipaldoz_quote(const uint8_t *text, size_t text_length,
                    uint64_t answer[MIPALDOZ_QUOTE_ANSWER]);

/*
 * Reads a listing beside its table text and says whether it is of the class and gives the table. Both are only read.
 *
 *   text           any bytes, any length; no zero byte ends it
 *   listing        any bytes, any length; no zero byte ends it
 *   answer         number, line, outcome, point
 *
 * The outcome is MIPALDOZ_NOT_OF_CLASS where no member with the listing's M and i prints its cubes; else
 * MIPALDOZ_DIFFERS with the lowest point at which the listing's own lines, the outputs inverted where its `inv` line
 * says, do not give the table's outputs; else MIPALDOZ_SAME, whether the listing is the cheapest or not. Any mask is of
 * the class.
 *
 * Refusals, the first that applies:
 *   - the text as in mipaldoz_read, 1 to 6 with the line in the text;
 *   - line 1 of the listing: 11 where it is broken, 12 where its family, n, m or k is not the table's. A `form` listing
 *     goes with `table`, a `form2` listing with `table2`, and an `f` field with the same `f` field, or with `-` where
 *     that means it;
 *   - its later lines, one by one: 11 with the line. Line 2 is the `inv` line;
 *   - its counts: 12, line 1.
 * Where the k of the text is `K`, a `form` or `form2` listing is refused by 12 and any other by 11, each with line 1. A
 * `kron` listing is refused by 11, line 1, beside every text that is accepted.
 */
void mipaldoz_check(const uint8_t *text, size_t text_length,
                    const uint8_t *listing, size_t listing_length,
                    uint64_t answer[MIPALDOZ_CHECK_ANSWER]);

#ifdef __cplusplus
}
#endif

/*
 * The same calls, their answers returned in structs. A member is the number that enum mipaldoz_answer has under the
 * member's name; products, literals and length of a quotation have QUOTE before it there.
 */

struct mipaldoz_forward_result {
    uint64_t number, line;
};

static inline struct mipaldoz_forward_result mipaldoz_forward_call(
    size_t n, size_t m, size_t w,
    const uint8_t *table, size_t table_length,
    uint8_t *coefficients, size_t coefficients_length)
{
    uint64_t answer[MIPALDOZ_FORWARD_ANSWER];
    struct mipaldoz_forward_result result;

    mipaldoz_forward(n, m, w, table, table_length, coefficients, coefficients_length, answer);
    result.number = answer[MIPALDOZ_NUMBER];
    result.line = answer[MIPALDOZ_LINE];
    return result;
}

struct mipaldoz_backward_result {
    uint64_t number, line;
};

static inline struct mipaldoz_backward_result mipaldoz_backward_call(
    size_t n, size_t m, size_t w,
    const uint8_t *coefficients, size_t coefficients_length,
    uint8_t *table, size_t table_length)
{
    uint64_t answer[MIPALDOZ_BACKWARD_ANSWER];
    struct mipaldoz_backward_result result;

    mipaldoz_backward(n, m, w, coefficients, coefficients_length, table, table_length, answer);
    result.number = answer[MIPALDOZ_NUMBER];
    result.line = answer[MIPALDOZ_LINE];
    return result;
}

struct mipaldoz_minimise_result {
    uint64_t number, line, mixed, fixed, products, literals, inverted;
};

static inline struct mipaldoz_minimise_result mipaldoz_minimise_call(
    size_t n, size_t m, size_t k,
    const uint8_t *table, size_t table_length,
    uint8_t *coefficients, size_t coefficients_length,
    uint8_t *blocks, size_t blocks_length)
{
    uint64_t answer[MIPALDOZ_MINIMISE_ANSWER];
    struct mipaldoz_minimise_result result;

    mipaldoz_minimise(n, m, k, table, table_length, coefficients, coefficients_length, blocks, blocks_length, answer);
    result.number = answer[MIPALDOZ_NUMBER];
    result.line = answer[MIPALDOZ_LINE];
    result.mixed = answer[MIPALDOZ_MIXED];
    result.fixed = answer[MIPALDOZ_FIXED];
    result.products = answer[MIPALDOZ_PRODUCTS];
    result.literals = answer[MIPALDOZ_LITERALS];
    result.inverted = answer[MIPALDOZ_INVERTED];
    return result;
}

struct mipaldoz_read_result {
    uint64_t number, line, inputs, outputs, mixed_inputs, kind, family;
};

static inline struct mipaldoz_read_result mipaldoz_read_call(
    const uint8_t *text, size_t text_length,
    uint8_t *table, size_t table_length)
{
    uint64_t answer[MIPALDOZ_READ_ANSWER];
    struct mipaldoz_read_result result;

    mipaldoz_read(text, text_length, table, table_length, answer);
    result.number = answer[MIPALDOZ_NUMBER];
    result.line = answer[MIPALDOZ_LINE];
    result.inputs = answer[MIPALDOZ_INPUTS];
    result.outputs = answer[MIPALDOZ_OUTPUTS];
    result.mixed_inputs = answer[MIPALDOZ_MIXED_INPUTS];
    result.kind = answer[MIPALDOZ_KIND];
    result.family = answer[MIPALDOZ_FAMILY];
    return result;
}

struct mipaldoz_compile_result {
    uint64_t number, line, length;
};

static inline struct mipaldoz_compile_result mipaldoz_compile_call(
    const uint8_t *text, size_t text_length,
    uint8_t *output, size_t output_length)
{
    uint64_t answer[MIPALDOZ_COMPILE_ANSWER];
    struct mipaldoz_compile_result result;

    mipaldoz_compile(text, text_length, output, output_length, answer);
    result.number = answer[MIPALDOZ_NUMBER];
    result.line = answer[MIPALDOZ_LINE];
    result.length = answer[MIPALDOZ_LENGTH];
    return result;
}

struct mipaldoz_quote_result {
    uint64_t number, line, products, literals, length;
};

static inline struct mipaldoz_quote_result mipaldoz_quote_call(
    const uint8_t *text, size_t text_length)
{
    uint64_t answer[MIPALDOZ_QUOTE_ANSWER];
    struct mipaldoz_quote_result result;

    mipaldoz_quote(text, text_length, answer);
    result.number = answer[MIPALDOZ_NUMBER];
    result.line = answer[MIPALDOZ_LINE];
    result.products = answer[MIPALDOZ_QUOTE_PRODUCTS];
    result.literals = answer[MIPALDOZ_QUOTE_LITERALS];
    result.length = answer[MIPALDOZ_QUOTE_LENGTH];
    return result;
}

struct mipaldoz_check_result {
    uint64_t number, line, outcome, point;
};

static inline struct mipaldoz_check_result mipaldoz_check_call(
    const uint8_t *text, size_t text_length,
    const uint8_t *listing, size_t listing_length)
{
    uint64_t answer[MIPALDOZ_CHECK_ANSWER];
    struct mipaldoz_check_result result;

    mipaldoz_check(text, text_length, listing, listing_length, answer);
    result.number = answer[MIPALDOZ_NUMBER];
    result.line = answer[MIPALDOZ_LINE];
    result.outcome = answer[MIPALDOZ_OUTCOME];
    result.point = answer[MIPALDOZ_POINT];
    return result;
}

/* What a refusal says, in words: those of crates/refusal_words/specs/Sentences.antt. */
static inline const char *mipaldoz_refusal_words(uint64_t number)
{
    switch (number) {
    case MIPALDOZ_CARRIED_OUT:
        return "carried out";
    case MIPALDOZ_BAD_LINE:
        return "the line breaks its grammar";
    case MIPALDOZ_BAD_INPUTS:
        return "n, the number of inputs, is not 1 to 8";
    case MIPALDOZ_BAD_OUTPUTS:
        return "m, the number of outputs, is not 1 to 8";
    case MIPALDOZ_BAD_MIXED:
        return "k, the number of mixed inputs, is above its limit or above n";
    case MIPALDOZ_BAD_POINT:
        return "the point is 2^n or more, or not above the one before";
    case MIPALDOZ_BAD_END:
        return "the text stops before its end line, or goes on after it";
    case MIPALDOZ_BAD_POLARITY:
        return "the polarity w is 2^n or more";
    case MIPALDOZ_BAD_LENGTH:
        return "a buffer has another length than the call states";
    case MIPALDOZ_BAD_BYTE:
        return "a byte has a bit at m or above set";
    case MIPALDOZ_SHORT_OUTPUT:
        return "the output buffer is shorter than the listing";
    case MIPALDOZ_BAD_LISTING:
        return "the line breaks the grammar of a listing, its term is not above the one before, "
               "or the listing ends wrongly";
    case MIPALDOZ_OTHER_LISTING:
        return "the listing's family, n, m or k is not the table's, or its counts are not those of its lines";
    default:
        return "no refusal has this number";
    }
}

#endif
