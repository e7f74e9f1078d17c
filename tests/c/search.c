/* The search by lanes, to time the minimising call and the text call beside it: the same method as
   crates/search, in C. Byte o of word j is output o of block j, its bits the places of the block. A row has the
   coefficients of a function under each choice that a block has, a byte for each, eight to a word. In the block
   class a choice is one of the eight polarities. In the free class with two mixed inputs each place has its own
   polarity, so there are sixteen choices: the bit of place 1, the bit of place 2 and the two bits of place 3, the
   highest first. The rows are computed once, by block_search_prepare.

   A family is what a product and a literal weigh, so that the sum orders expansions as the family does: family
   one by products, then literals; family two by 4 x products + literals, then products.

   Inverters are free, so term 0, the constant, is no product: its coefficient is the inversion mask. A block pays
   its weight times 256, and block 0 the mask besides, so that equal costs go to the least mask. */

#include <stddef.h>
#include <stdint.h>

enum { INPUTS = 8, OUTPUTS = 8, FUNCTIONS = 256, POLARITIES = 8, PLACES = 8, MASKS = 256 };
enum { FREE_FUNCTIONS = 16, FREE_CHOICES = 16, FREE_PLACES = 4, WORDS = 2 };

enum family { FAMILY_ONE = 1, FAMILY_TWO = 2 };

/* The free class has two mixed inputs here: with fewer it has the answers of the block class. */
enum class { BLOCK, FREE };

/* Family one: a product 4096, a literal 1. Family two: a unit of the charge 512, and 1 for each product. */
enum { PRODUCT = 4096, UNIT = 512 };

static const uint8_t literals[8] = {0, 1, 1, 2, 1, 2, 2, 3};

static uint64_t rows[FUNCTIONS];
static uint64_t free_rows[FREE_FUNCTIONS][WORDS];

static unsigned ones(unsigned set) { return (unsigned)__builtin_popcount(set); }

/* The polarity of a place under a choice of the free class. */
static unsigned own_polarity(unsigned choice, unsigned place)
{
    const unsigned polarities[FREE_PLACES] = {0, choice >> 3, (choice >> 2 & 1) << 1, choice & 3};
    return polarities[place];
}

/* The coefficients of a function of two inputs under a choice, the largest place first. Each plain place that lacks
   some of the complemented literals takes up the coefficient. */
static unsigned own_coefficients(unsigned g, unsigned choice)
{
    unsigned digits = 0, found = 0;
    for (unsigned t = 0; t < FREE_PLACES; t++)
        for (unsigned p = 0; p < FREE_PLACES; p++)
            if ((p & t) == p)
                digits ^= (g >> p & 1) << t;
    for (unsigned t = FREE_PLACES; t-- > 0;) {
        unsigned complemented = t & own_polarity(choice, t);
        if (digits >> t & 1) {
            found |= 1u << t;
            for (unsigned lacked = complemented; lacked != 0; lacked = (lacked - 1) & complemented)
                digits ^= 1u << (t - lacked);
        }
    }
    return found;
}

static void prepare_free_rows(void)
{
    for (unsigned g = 0; g < FREE_FUNCTIONS; g++)
        for (unsigned word = 0; word < WORDS; word++) {
            free_rows[g][word] = 0;
            for (unsigned c = 0; c < 8; c++)
                free_rows[g][word] |= (uint64_t)own_coefficients(g, 8 * word + c) << (8 * c);
        }
}

void block_search_prepare(void)
{
    prepare_free_rows();
    for (unsigned g = 0; g < FUNCTIONS; g++) {
        rows[g] = 0;
        for (unsigned phi = 0; phi < POLARITIES; phi++)
            for (unsigned t = 0; t < PLACES; t++) {
                unsigned digit = 0;
                for (unsigned p = 0; p < PLACES; p++)
                    if ((p & t) == p)
                        digit ^= g >> (p ^ phi) & 1;
                rows[g] |= (uint64_t)digit << (8 * phi + t);
            }
    }
}

/* The bits of x, lowest first, at the inputs of the set. */
static unsigned spread(unsigned x, unsigned set)
{
    unsigned y = 0;
    for (unsigned input = 0; input < INPUTS; input++)
        if (set >> input & 1) {
            y |= (x & 1) << input;
            x >>= 1;
        }
    return y;
}

/* One design under one mixed set, and the functions of its blocks. */
struct split {
    unsigned mixed, rest, inside, outside, blocks;
    uint64_t lanes[1 << INPUTS];
};

static void lay_out(struct split *s, size_t n, unsigned mixed, const uint8_t *table)
{
    unsigned places[PLACES];
    s->mixed = mixed;
    s->rest = ((1u << n) - 1) & ~mixed;
    s->inside = ones(mixed);
    s->outside = (unsigned)n - s->inside;
    s->blocks = 1u << s->outside;
    for (unsigned p = 0; p < PLACES; p++)
        places[p] = spread(p & ((1u << s->inside) - 1), mixed);
    for (unsigned q = 0; q < s->blocks; q++) {
        unsigned base = spread(q, s->rest);
        s->lanes[q] = 0;
        for (unsigned o = 0; o < OUTPUTS; o++)
            for (unsigned p = 0; p < PLACES; p++)
                s->lanes[q] |= (uint64_t)(table[base | places[p]] >> o & 1) << (8 * o + p);
    }
}

/* The half step for an input: each block where the input is `with` takes up the one where it is not. */
static void half_step(struct split *s, unsigned with, unsigned input)
{
    unsigned half = 1u << input, to = with << input, from = (1 - with) << input;
    for (unsigned base = 0; base < s->blocks; base += 2 * half)
        for (unsigned q = base; q < base + half; q++)
            s->lanes[q + to] ^= s->lanes[q + from];
}

/* The inputs in which two polarities differ, turned over. */
static void turn(struct split *s, unsigned changed)
{
    for (unsigned input = 0; input < s->outside; input++)
        if (changed >> input & 1)
            half_step(s, 0, input);
}

static void expand(struct split *s, size_t n, unsigned mixed, const uint8_t *table)
{
    lay_out(s, n, mixed, table);
    for (unsigned input = 0; input < s->outside; input++)
        half_step(s, 1, input);
}

/* A step of the search is made anew for each family and class, which are constants in it. */
#define STEP static inline __attribute__((always_inline))

/* What products and literals weigh. */
STEP uint32_t weigh(enum family family, uint32_t products, uint32_t count)
{
    return family == FAMILY_ONE ? products * PRODUCT + count : (4 * products + count) * UNIT + products;
}

/* Products and literals of a sum of weights. */
static void counts(enum family family, uint32_t weight, uint64_t *products, uint64_t *count)
{
    *products = family == FAMILY_ONE ? weight / PRODUCT : weight % UNIT;
    *count = family == FAMILY_ONE ? weight % PRODUCT : weight / UNIT - 4 * *products;
}

/* What the choices of a block are compared by: 16 for each product and 1 for each literal within the mixed
   inputs. In family one this is their order; in family two the literals outside weigh in it. */
STEP uint32_t rank(enum family family, uint32_t sum, unsigned outside)
{
    return family == FAMILY_ONE ? sum : weigh(family, sum >> 4, (sum >> 4) * outside + (sum & 15));
}

/* A word of the row of output o of a block. */
STEP uint64_t row(const struct split *s, enum class class, unsigned j, unsigned o, unsigned word)
{
    unsigned g = s->lanes[j] >> (8 * o) & 255;
    return class == BLOCK ? rows[g] : free_rows[g & (FREE_FUNCTIONS - 1)][word];
}

/* How many words a row has, and how many choices a block has in each. */
STEP unsigned words(enum class class) { return class == BLOCK ? 1 : WORDS; }

STEP unsigned choices(const struct split *s, enum class class)
{
    return class == BLOCK ? 1u << s->inside : FREE_CHOICES / WORDS;
}

/* The products and literals of a block under eight choices, 16 and 1 each, a byte for each choice. Its places count
   from `first` on. */
STEP uint64_t sums_from(const struct split *s, enum class class, unsigned j, unsigned word, unsigned first)
{
    uint64_t used = 0, sums = 0;
    for (unsigned o = 0; o < OUTPUTS; o++)
        used |= row(s, class, j, o, word);
    for (unsigned t = first; t < (class == BLOCK ? PLACES : FREE_PLACES); t++)
        sums += (used >> t & 0x0101010101010101u) * (16u + literals[t]);
    return sums;
}

/* The coefficient of place p of a block under a choice. */
STEP uint8_t coefficient(const struct split *s, enum class class, unsigned j, unsigned choice, unsigned p)
{
    uint8_t byte = 0;
    for (unsigned o = 0; o < OUTPUTS; o++)
        byte |= (uint8_t)((row(s, class, j, o, choice / 8) >> (8 * (choice % 8) + p) & 1) << o);
    return byte;
}

/* The least weight of block 0 without term 0, times 256, and the mask; and the least choice that has it. */
STEP uint32_t cheapest_first(const struct split *s, enum family family, enum class class, uint8_t *chosen)
{
    uint32_t least = UINT32_MAX;
    for (unsigned word = 0; word < words(class); word++) {
        const uint64_t sums = sums_from(s, class, 0, word, 1);
        for (unsigned c = 0; c < choices(s, class); c++) {
            uint32_t sum = sums >> (8 * c) & 255;
            uint32_t next = weigh(family, sum >> 4, sum & 15) * MASKS + coefficient(s, class, 0, 8 * word + c, 0);
            if (next < least) {
                least = next;
                *chosen = (uint8_t)(8 * word + c);
            }
        }
    }
    return least;
}

/* The least weight of another block, times 256, and the least choice that has it. In the block class the first choice
   is taken before the others are compared; in the free class, with a fixed number of them, that takes longer. */
STEP uint32_t cheapest(const struct split *s, enum family family, enum class class, unsigned j, uint8_t *chosen)
{
    const unsigned outside = ones(j);
    uint32_t least = UINT32_MAX;
    for (unsigned word = 0; word < words(class); word++) {
        const uint64_t sums = sums_from(s, class, j, word, 0);
        const unsigned first = class == BLOCK;
        if (first) {
            least = rank(family, sums & 255, outside);
            *chosen = 0;
        }
        for (unsigned c = first; c < choices(s, class); c++) {
            uint32_t next = rank(family, sums >> (8 * c) & 255, outside);
            if (next < least) {
                least = next;
                *chosen = (uint8_t)(8 * word + c);
            }
        }
    }
    if (family == FAMILY_ONE)
        least = weigh(family, least >> 4, (least >> 4) * outside + (least & 15));
    return least * MASKS;
}

static void write_coefficients(const struct split *s, enum class class, const uint8_t *blocks, uint8_t *coefficients)
{
    for (unsigned j = 0; j < s->blocks; j++)
        for (unsigned p = 0; p < 1u << s->inside; p++)
            coefficients[spread(j, s->rest) | spread(p, s->mixed)] = coefficient(s, class, j, blocks[j], p);
    coefficients[0] = 0;
}

STEP void search(enum family family, enum class class, size_t n, size_t k, const uint8_t *table,
                          uint8_t *coefficients, uint8_t *blocks, uint64_t *answer)
{
    struct split s;
    uint8_t chosen;
    uint32_t least = UINT32_MAX;
    unsigned best_mixed = 0, best_polarity = 0;
    for (unsigned mixed = 0; mixed < 1u << n; mixed++) {
        if (ones(mixed) != k)
            continue;
        expand(&s, n, mixed, table);
        for (unsigned polarity = 0; polarity < s.blocks; polarity++) {
            uint32_t total = cheapest_first(&s, family, class, &chosen);
            for (unsigned j = 1; j < s.blocks; j++)
                total += cheapest(&s, family, class, j, &chosen);
            if (total < least) {
                least = total;
                best_mixed = mixed;
                best_polarity = polarity;
            }
            if (polarity + 1 < s.blocks)
                turn(&s, polarity ^ (polarity + 1));
        }
    }
    expand(&s, n, best_mixed, table);
    turn(&s, best_polarity);
    cheapest_first(&s, family, class, &blocks[0]);
    for (unsigned j = 1; j < s.blocks; j++)
        cheapest(&s, family, class, j, &blocks[j]);
    write_coefficients(&s, class, blocks, coefficients);
    answer[0] = answer[1] = 0;
    answer[2] = best_mixed;
    answer[3] = spread(best_polarity, s.rest);
    counts(family, least / MASKS, &answer[4], &answer[5]);
    answer[6] = least % MASKS;
}

/* The least expansion of the family that gives a sound table: of the block class with k mixed inputs, or of the free
   class with two. The answer is number, line, M, i, products, literals, the inversion mask; `blocks` has the choice of
   each block. The family and the class are constants in each of the four. */
void block_search(size_t family, size_t is_free, size_t n, size_t k, const uint8_t *table, uint8_t *coefficients,
                  uint8_t *blocks, uint64_t *answer)
{
    if (family == FAMILY_ONE && is_free)
        search(FAMILY_ONE, FREE, n, 2, table, coefficients, blocks, answer);
    else if (family == FAMILY_ONE)
        search(FAMILY_ONE, BLOCK, n, k, table, coefficients, blocks, answer);
    else if (is_free)
        search(FAMILY_TWO, FREE, n, 2, table, coefficients, blocks, answer);
    else
        search(FAMILY_TWO, BLOCK, n, k, table, coefficients, blocks, answer);
}
