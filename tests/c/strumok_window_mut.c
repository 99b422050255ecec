/*
 * strumok_window_mut called from C: that the struct's words are where the header says, that the state is found moved on and the buffer
 * worked over in its window alone, and that each refusal has its number and leaves both as they were. The words expected follow from the
 * rule of one step and the worked table of the scope paper: T(0) in row 6, α times 47FCC6018A990000 in row 5, entry 01 of α's second
 * table in row 3.
 */
#include "strumok_mut.h"

#include "check.h"

#include <inttypes.h>
#include <stdio.h>
#include <string.h>

#define LIMIT UINT64_C(16777216)
#define T_OF_0 UINT64_C(0x14E6CC3F14E6CC3F)
#define ALPHA_INVERSE UINT64_C(0x47FCC6018A990000)

enum { LENGTH = 32 };

static int same_state(const struct strumok_state *a, const struct strumok_state *b)
{
    return memcmp(a, b, sizeof *a) == 0;
}

/* Eighteen different words in the registers; r1 is 0 and s0 and s11 are words whose products the worked table has. */
static struct strumok_state example(uint64_t position)
{
    struct strumok_state s;
    for (unsigned i = 0; i < 16; i++)
        s.cells[i] = UINT64_C(0x0123456789ABCDEF) * (i + 1);
    s.cells[0] = ALPHA_INVERSE;
    s.cells[11] = 1;
    s.r1 = 0;
    s.r2 = UINT64_C(0xFEDCBA9876543210);
    s.size = 256;
    s.position = position;
    return s;
}

static void fill(uint8_t buffer[LENGTH])
{
    for (unsigned i = 0; i < LENGTH; i++)
        buffer[i] = (uint8_t)(17 * i + 3);
}

static void test_layout(void)
{
    expect(sizeof(struct strumok_state) == 20 * 8, "a state is twenty words");
    expect(offsetof(struct strumok_state, r1) == 16 * 8, "r1 is word 16");
    expect(offsetof(struct strumok_state, r2) == 17 * 8, "r2 is word 17");
    expect(offsetof(struct strumok_state, size) == 18 * 8, "the size mark is word 18");
    expect(offsetof(struct strumok_state, position) == 19 * 8, "the position is word 19");
}

/* A window of one word: one step, and Z = F(s15, r1, r2) xor s0 over the eight bytes, least significant first. */
static void test_one_word(void)
{
    const struct strumok_state old = example(8);
    struct strumok_state s = old, next = old;
    uint8_t buffer[LENGTH], want[LENGTH];
    const uint64_t z = (old.cells[15] + old.r1) ^ old.r2 ^ old.cells[0];

    fill(buffer);
    fill(want);
    for (unsigned i = 0; i < 8; i++)
        want[5 + i] ^= (uint8_t)(z >> (8 * i));
    for (unsigned i = 0; i < 15; i++)
        next.cells[i] = old.cells[i + 1];
    next.cells[15] = 1 ^ ALPHA_INVERSE ^ old.cells[13];
    next.r1 = old.r2 + old.cells[13];
    next.r2 = T_OF_0;
    next.position = 16;

    expect(strumok_window_mut(&s, buffer, LENGTH, 5, 8) == 0, "a window of one word is accepted");
    expect(memcmp(buffer, want, LENGTH) == 0, "its bytes are xor Z, the others kept");
    expect(same_state(&s, &next), "the state is one step on, word by word");
}

/* At position 3 a window of 13 bytes equals windows of 5, 0 and 8. */
static void test_portions(void)
{
    struct strumok_state whole = example(3), parts = example(3), before;
    uint8_t one[LENGTH], three[LENGTH];

    fill(one);
    fill(three);
    expect(strumok_window_mut(&whole, one, LENGTH, 2, 13) == 0, "13 bytes at position 3 are accepted");
    expect(strumok_window_mut(&parts, three, LENGTH, 2, 5) == 0, "5 of them are accepted");
    before = parts;
    expect(strumok_window_mut(&parts, three, LENGTH, 7, 0) == 0, "none is accepted");
    expect(same_state(&parts, &before), "none alters nothing");
    expect(strumok_window_mut(&parts, three, LENGTH, 7, 8) == 0, "8 of them are accepted");
    expect(memcmp(one, three, LENGTH) == 0, "the bytes are the same");
    expect(same_state(&whole, &parts), "the states are the same");
    expect(whole.position == 16, "the position is moved on by 13");

    parts = example(3);
    fill(three);
    expect(strumok_window_mut(&parts, one, LENGTH, 2, 13) == 0, "the same again is accepted");
    expect(memcmp(one, three, LENGTH) == 0, "and deciphers");
}

/* One call of a state with this size mark and position: its number, and where that is not 0, that nothing is altered. */
static void test_number(uint64_t want, uint64_t size, uint64_t position, size_t length, size_t start, size_t count)
{
    struct strumok_state s = example(position), old;
    uint8_t buffer[LENGTH], held[LENGTH];
    uint64_t number;

    s.size = size;
    old = s;
    fill(buffer);
    fill(held);
    number = strumok_window_mut(&s, buffer, length, start, count);
    if (number != want)
        printf("strumok_window_mut: size %" PRIu64 ", position %" PRIu64 ", %zu bytes, start %zu, count %zu: %" PRIu64 "\n", size, position,
               length, start, count, number);
    expect(number == want, "the number of this call");
    if (want != 0) {
        expect(same_state(&s, &old), "a refusal gives the state back as it came");
        expect(memcmp(buffer, held, LENGTH) == 0, "a refusal writes nothing");
    } else {
        expect(s.position == position + count, "the position is moved on by the count");
        expect(s.size == size, "the size mark stays");
    }
}

static void test_numbers(void)
{
    test_number(0, 256, 0, LENGTH, 0, LENGTH);
    test_number(0, 512, 0, LENGTH, LENGTH, 0);
    test_number(0, 256, 0, 0, 0, 0);
    test_number(0, 256, LIMIT - 1, LENGTH, 0, 1);
    test_number(0, 256, LIMIT, LENGTH, 0, 0);
    test_number(3, 0, 0, LENGTH, 0, 1);
    test_number(3, 255, LIMIT + 1, LENGTH, LENGTH, 1);
    test_number(4, 512, LIMIT + 1, LENGTH, 0, 0);
    test_number(4, 256, UINT64_MAX, LENGTH, LENGTH, 1);
    test_number(6, 256, 0, LENGTH, LENGTH, 1);
    test_number(6, 256, 0, LENGTH, 0, LENGTH + 1);
    test_number(6, 256, 0, LENGTH, SIZE_MAX, 1);
    test_number(6, 256, 0, LENGTH, 1, SIZE_MAX);
    test_number(6, 256, LIMIT, LENGTH, SIZE_MAX, SIZE_MAX);
    test_number(7, 256, LIMIT, LENGTH, 0, 1);
    test_number(7, 512, LIMIT - 1, LENGTH, 0, 2);
}

int main(void)
{
    test_layout();
    test_one_word();
    test_portions();
    test_numbers();
    return report("strumok_window_mut");
}
