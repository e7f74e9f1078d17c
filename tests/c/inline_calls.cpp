// The inline calls of include/mipaldoz.h, from C++: each struct has the numbers of the call's answer under their names.
// The table is document 01's example, n = 2, m = 2, k = 1: output 1 is on at point 0, output 0 at the other points.
#include "mipaldoz.h"

#include <cstdio>
#include <cstring>

static int wrong = 0;

static void expect(const char *what, uint64_t found, uint64_t wanted)
{
    if (found == wanted)
        return;
    std::printf("%s is %lu, not %lu\n", what, static_cast<unsigned long>(found), static_cast<unsigned long>(wanted));
    wrong = 1;
}

static void expect(const char *what, const void *found, const char *wanted)
{
    expect(what, std::memcmp(found, wanted, std::strlen(wanted)) == 0, 1);
}

int main()
{
    const char words[] = "table\t2\t2\t1\non\t0\t01\non\t1\t10\non\t2\t10\non\t3\t10\nend\n";
    const uint8_t *text = reinterpret_cast<const uint8_t *>(words);
    const size_t length = sizeof words - 1;
    uint8_t table[MIPALDOZ_TABLE_BYTES], coefficients[4], blocks[2], back[4], listing[MIPALDOZ_LONGEST_LISTING];

    const mipaldoz_read_result read = mipaldoz_read_call(text, length, table, sizeof table);
    expect("read: number", read.number, MIPALDOZ_CARRIED_OUT);
    expect("read: inputs", read.inputs, 2);
    expect("read: outputs", read.outputs, 2);
    expect("read: mixed_inputs", read.mixed_inputs, 1);
    expect("read: kind", read.kind, MIPALDOZ_KIND_BLOCK);
    expect("read: family", read.family, MIPALDOZ_FAMILY_ONE);
    expect("read: table", table, "\2\1\1\1");

    expect("forward: number", mipaldoz_forward_call(2, 2, 3, table, 4, coefficients, 4).number, MIPALDOZ_CARRIED_OUT);
    expect("forward: constant", coefficients[0], 1);
    expect("forward: product", coefficients[3], 3);
    expect("backward: number", mipaldoz_backward_call(2, 2, 3, coefficients, 4, back, 4).number, MIPALDOZ_CARRIED_OUT);
    expect("backward: table", back, "\2\1\1\1");
    expect("backward: refusal", mipaldoz_backward_call(2, 2, 4, table, 4, back, 4).number, MIPALDOZ_BAD_POLARITY);

    const mipaldoz_minimise_result least = mipaldoz_minimise_call(2, 2, 1, table, 4, coefficients, 4, blocks, 2);
    expect("minimise: number", least.number, MIPALDOZ_CARRIED_OUT);
    expect("minimise: mixed", least.mixed, 1);
    expect("minimise: fixed", least.fixed, 2);
    expect("minimise: products", least.products, 1);
    expect("minimise: literals", least.literals, 2);
    expect("minimise: inverted", least.inverted, 1);

    const mipaldoz_compile_result compiled = mipaldoz_compile_call(text, length, listing, sizeof listing);
    const char wanted[] = "form\t2\t2\t1\t1\t2\t1\t2\ninv\t10\nterm\t00\t11\nend\n";
    expect("compile: number", compiled.number, MIPALDOZ_CARRIED_OUT);
    expect("compile: length", compiled.length, sizeof wanted - 1);
    expect("compile: listing", listing, wanted);

    const mipaldoz_quote_result quoted = mipaldoz_quote_call(text, length);
    expect("quote: number", quoted.number, MIPALDOZ_CARRIED_OUT);
    expect("quote: products", quoted.products, 1);
    expect("quote: literals", quoted.literals, 2);
    expect("quote: length", quoted.length, sizeof wanted - 1);
    const size_t room = static_cast<size_t>(quoted.length);
    expect("compile: enough", mipaldoz_compile_call(text, length, listing, room).number, MIPALDOZ_CARRIED_OUT);
    expect("compile: short", mipaldoz_compile_call(text, length, listing, room - 1).number, MIPALDOZ_SHORT_OUTPUT);
    const mipaldoz_quote_result unquoted = mipaldoz_quote_call(text, length - 1); // no line end after `end`
    expect("quote: number", unquoted.number, MIPALDOZ_BAD_LINE);
    expect("quote: line", unquoted.line, 6);
    expect("quote: length", unquoted.length, 0);

    const size_t listed = static_cast<size_t>(compiled.length);
    expect("check: outcome", mipaldoz_check_call(text, length, listing, listed).outcome, MIPALDOZ_SAME);
    const char without[] = "table\t2\t2\t1\non\t0\t01\non\t1\t10\non\t2\t10\nend\n"; // all 0 at point 3
    const mipaldoz_check_result checked =
        mipaldoz_check_call(reinterpret_cast<const uint8_t *>(without), sizeof without - 1, listing, listed);
    expect("check: outcome", checked.outcome, MIPALDOZ_DIFFERS);
    expect("check: point", checked.point, 3);
    const mipaldoz_check_result refused = mipaldoz_check_call(text, length, listing, listed - 1);
    expect("check: number", refused.number, MIPALDOZ_BAD_LISTING);
    expect("check: line", refused.line, 4);
    expect("words", mipaldoz_refusal_words(13), "no refusal has this number");
    return wrong;
}
