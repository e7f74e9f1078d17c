/* Two searches for the least Kronecker expansion, to time the text call on a `K` text beside them.

   kronecker_search is the same method as crates/kronecker, in C: a walk over the 3^n kinds from x1 up, which
   share their steps, with an array for each depth and the weights of the terms so far. The last input makes no
   step: what its three kinds cost follows from the lower half, the upper half and their exclusive OR.

   kronecker_plain shares the steps from xn down and charges all terms of every kind.

   A kind is a number in base 3, the digit of xn the highest: 0 Shannon, 1 positive Davio, 2 negative Davio. */

#include <stddef.h>
#include <stdint.h>

enum { INPUTS = 8, SIZE = 1 << INPUTS, PRODUCT = 4096, KINDS = 8192 };

/* The step for an input in one of the three ways. */
static void step(unsigned input, unsigned letter, unsigned size, const uint8_t *from, uint8_t *to)
{
    unsigned half = 1u << input;
    for (unsigned base = 0; base < size; base += 2 * half)
        for (unsigned p = base; p < base + half; p++) {
            uint8_t low = from[p], high = from[p + half];
            to[p] = letter == 2 ? high : low;
            to[p + half] = letter == 0 ? high : low ^ high;
        }
}

/* The coefficients of the table in a kind. */
static void expand(size_t n, unsigned kind, const uint8_t *table, uint8_t *coefficients)
{
    uint8_t values[SIZE];
    for (unsigned p = 0; p < 1u << n; p++)
        coefficients[p] = table[p];
    for (unsigned input = 0; input < n; input++, kind /= 3) {
        for (unsigned p = 0; p < 1u << n; p++)
            values[p] = coefficients[p];
        step(input, kind % 3, 1u << n, values, coefficients);
    }
}

static void write_answer(size_t n, unsigned kind, uint32_t charge, const uint8_t *table,
                         uint8_t *coefficients, uint64_t *answer)
{
    expand(n, kind, table, coefficients);
    answer[0] = kind;
    answer[1] = charge / PRODUCT;
    answer[2] = charge % PRODUCT;
}

/* The weights of the terms of one more input: `more` literals more without it, and one more with it. */
static void weigh(unsigned input, uint32_t more, const uint32_t *from, uint32_t *to)
{
    unsigned half = 1u << input;
    for (unsigned s = 0; s < half; s++) {
        to[s] = from[s] + more;
        to[s + half] = from[s] + 1;
    }
}

static uint64_t lower(uint64_t best, uint32_t charge, unsigned kind)
{
    uint64_t score = (uint64_t)charge * KINDS + kind;
    return score < best ? score : best;
}

/* The weight where the coefficient is not 0, and 0 where it is, without a branch. */
static uint32_t counted(uint8_t coefficient, uint32_t weight)
{
    return -(uint32_t)(coefficient != 0) & weight;
}

/* The three kinds that the letter of the last input makes. */
static uint64_t try_last(unsigned input, unsigned kind, unsigned power, const uint8_t *values,
                         const uint32_t *weights, uint64_t best)
{
    unsigned half = 1u << input;
    uint32_t first = 0, second = 0, both = 0;
    for (unsigned s = 0; s < half; s++) {
        uint8_t low = values[s], high = values[s + half];
        first += counted(low, weights[s]);
        second += counted(high, weights[s]);
        both += counted(low ^ high, weights[s]);
    }
    best = lower(best, first + first / PRODUCT + second + second / PRODUCT, kind);
    best = lower(best, first + both + both / PRODUCT, kind + power);
    return lower(best, second + both + both / PRODUCT, kind + 2 * power);
}

static uint64_t walk(size_t n, unsigned input, unsigned kind, unsigned power, const uint8_t *values,
                     const uint32_t *weights, uint64_t best)
{
    if (input + 1 == n)
        return try_last(input, kind, power, values, weights, best);
    uint8_t stepped[SIZE];
    uint32_t next[SIZE / 2];
    weigh(input, 1, weights, next);
    best = walk(n, input + 1, kind, 3 * power, values, next, best);
    weigh(input, 0, weights, next);
    for (unsigned letter = 1; letter < 3; letter++) {
        step(input, letter, 1u << n, values, stepped);
        best = walk(n, input + 1, kind + letter * power, 3 * power, stepped, next, best);
    }
    return best;
}

/* The least expansion of a sound table. The answer is kind, products, literals. */
void kronecker_search(size_t n, const uint8_t *table, uint8_t *coefficients, uint64_t *answer)
{
    uint32_t weights[SIZE / 2] = {PRODUCT};
    uint64_t best = walk(n, 0, 0, 1, table, weights, UINT64_MAX);
    write_answer(n, best % KINDS, (uint32_t)(best / KINDS), table, coefficients, answer);
}

/* The least charge so far, and the first kind that has it. */
struct found {
    uint32_t charge;
    unsigned kind;
};

/* Tries every kind that has the letters chosen for the inputs from `left` on; `shannon` has those inputs that
   every term holds, and `ones` the number of bits set in each number. */
static void descend(size_t n, unsigned left, unsigned kind, unsigned shannon, const uint8_t *ones,
                    const uint8_t *values, struct found *best)
{
    if (left == 0) {
        uint32_t charge = 0;
        for (unsigned t = 0; t < 1u << n; t++)
            charge += counted(values[t], PRODUCT + ones[t | shannon]);
        if (charge < best->charge)
            *best = (struct found){charge, kind};
        return;
    }
    uint8_t stepped[SIZE];
    unsigned input = left - 1;
    descend(n, input, 3 * kind, shannon | 1u << input, ones, values, best);
    for (unsigned letter = 1; letter < 3; letter++) {
        step(input, letter, 1u << n, values, stepped);
        descend(n, input, 3 * kind + letter, shannon, ones, stepped, best);
    }
}

/* The same answer, by the plain search. */
void kronecker_plain(size_t n, const uint8_t *table, uint8_t *coefficients, uint64_t *answer)
{
    struct found best = {UINT32_MAX, 0};
    uint8_t ones[SIZE];
    for (unsigned x = 0; x < SIZE; x++)
        ones[x] = (uint8_t)__builtin_popcount(x);
    descend(n, (unsigned)n, 0, 0, ones, table, &best);
    write_answer(n, best.kind, best.charge, table, coefficients, answer);
}
