/* A stand-in for the compiled box, to show that the harness sees what it is there to see.
 * As it stands it uses secrets by masks alone. Each value of LEAK from 1 on brings in one leak that the harness must report:
 * 1 a branch on a position, 2 an address made from one, 3 a check that ends at the first offending place, 4 a digit that decides whether a row is moved,
 * 5 a branch on a word of the row, 6 a number of turns that depends on a position, 7 a comparison of rows that ends at the first word that differs,
 * 8 a branch that tells the half of a key in which a position stands twice. 9 is no leak but a wrong row: a seal leaves a tail bit of OUT set. */

#include <stddef.h>
#include <stdint.h>

#ifndef LEAK
#define LEAK 0
#endif

typedef uint32_t call(uint32_t *words, size_t words_len, const uint32_t *positions, size_t positions_len, const uint32_t *row, size_t row_len,
                      uint32_t r, uint32_t d, uint32_t t);
call loaded, sealed;

/* Keeps the compiler from turning a leak into a mask, or a mask into a branch. */
static uint32_t opaque(uint32_t x)
{
    __asm__ volatile("" : "+r"(x));
    return x;
}

static uint32_t less(uint32_t a, uint32_t b)
{
    return opaque((uint32_t)(((uint64_t)a - b) >> 32));
}

static uint32_t choose(uint32_t mask, uint32_t a, uint32_t b)
{
    return b ^ (mask & (a ^ b));
}

/* The first place whose word is not below the limit, else t. */
static uint32_t first_beyond(const uint32_t *p, uint32_t t, uint32_t limit)
{
    uint32_t first = t;
    for (uint32_t i = t; i-- > 0;) {
        if (LEAK == 3 && opaque(p[i]) >= limit)
            return i;
        first = choose(less(p[i], limit), first, i);
    }
    return first;
}

/* The first of t places whose word stands earlier, else t. */
static uint32_t first_twice(const uint32_t *p, uint32_t t)
{
    uint32_t first = t;
    for (uint32_t i = t; i-- > 0;)
        for (uint32_t j = 0; j < i; j++)
            first = choose(less(p[i] ^ p[j], 1), i, first);
    return first;
}

static uint32_t bit(const uint32_t *row, uint32_t j)
{
    return row[j / 32] >> j % 32 & 1;
}

/* Rotates the row at `from` by `by` where the mask is all ones, in place, by way of the row at `to`. */
static void stage(uint32_t *from, uint32_t *to, uint32_t r, uint32_t by, uint32_t mask)
{
    if (LEAK == 4 && opaque(mask) == 0)
        return;
    for (uint32_t w = 0; w < (r + 31) / 32; w++)
        to[w] = 0;
    for (uint32_t j = 0; j < r; j++)
        to[j / 32] |= choose(mask, bit(from, (j + r - by) % r), bit(from, j)) << j % 32;
    for (uint32_t w = 0; w < (r + 31) / 32; w++)
        from[w] = to[w];
}

/* Adds to `sum` what one position makes of the row at `row`. */
static void add_position(uint32_t *row, uint32_t *work, uint32_t *sum, uint32_t r, uint32_t p)
{
    uint32_t first = less(p, r), w = (r + 31) / 32;
    uint32_t index = p - choose(first, 0, r);
    if (LEAK == 1 && opaque(p) < r)
        first = opaque(first);
    if (LEAK == 2)
        work[2 * w] = work[index % w];
    if (LEAK == 6)
        for (uint32_t i = 0; i < index % 4; i++)
            sum[0] ^= opaque(0);
    for (uint32_t i = 0; i < w; i++) {
        if (LEAK == 5 && opaque(row[i]) == 0)
            first = opaque(first);
        work[i] = choose(first, i == 0, row[i]);
    }
    for (uint32_t k = 0; k < 14; k++)
        stage(work, work + w, r, (1u << k) % r, -(index >> k & opaque(1)));
    for (uint32_t i = 0; i < w; i++)
        sum[i] ^= work[i];
}

/* Opens the box and gives the words. */
static void give(uint32_t *words, size_t words_len, const uint32_t *positions, size_t positions_len, const uint32_t *row, size_t row_len, uint32_t place)
{
    for (size_t i = 0; i < words_len; i++)
        words[i] = 0;
    for (size_t i = 0; i < positions_len; i++)
        words[i] = positions[i];
    for (size_t i = 0; i < row_len; i++)
        words[place + i] = row[i];
}

/* Whether a row is bit 0 alone. */
static uint32_t is_unit(const uint32_t *row, uint32_t w)
{
    uint32_t differences = 0;
    for (uint32_t i = 0; i < w; i++) {
        if (LEAK == 7 && opaque(row[i]) != (i == 0))
            return 0;
        differences |= row[i] ^ (i == 0);
    }
    return differences == 0;
}

uint32_t sealed(uint32_t *words, size_t words_len, const uint32_t *positions, size_t positions_len, const uint32_t *row, size_t row_len,
                uint32_t r, uint32_t d, uint32_t t)
{
    uint32_t w = (r + 31) / 32, place = 2 * d > t ? 2 * d : t;
    uint32_t *out = words + place + w + 2 * d;
    give(words, words_len, positions, positions_len, row, row_len, place);
    if (first_beyond(words, t, 2 * r) < t)
        return 10;
    if (first_twice(words, t) < t)
        return 11;
    if (r % 32 && words[place + w - 1] >> r % 32)
        return 12;
    for (uint32_t i = 0; i < t; i++)
        add_position(words + place, out + 2 * w, out, r, words[i]);
    if (LEAK == 9 && r % 32)
        out[w - 1] |= 1u << 31;
    return 0;
}

uint32_t loaded(uint32_t *words, size_t words_len, const uint32_t *positions, size_t positions_len, const uint32_t *row, size_t row_len,
                uint32_t r, uint32_t d, uint32_t t)
{
    uint32_t w = (r + 31) / 32, place = 2 * d > t ? 2 * d : t;
    uint32_t *key = words + place + w, *out = key + 2 * d, *work = out + 2 * w, *unit = work + 2 * w;
    give(words, words_len, positions, positions_len, row, row_len, place);
    if (first_beyond(words, 2 * d, r) < 2 * d)
        return 6;
    if (LEAK == 8 && first_twice(words, d) < d)
        return 7;
    if (opaque(less(first_twice(words, d), d) | less(first_twice(words + d, d), d)))
        return 7;
    if (r % 32 && words[place + w - 1] >> r % 32)
        return 8;
    for (uint32_t i = 0; i < d; i++) {
        add_position(words + place, work, unit, r, words[i] + r);
        add_position(words + place, work, out, r, words[d + i] + r);
    }
    if (!is_unit(unit, w))
        return 9;
    for (uint32_t i = 0; i < 2 * d; i++)
        key[i] = words[i];
    return 0;
}
