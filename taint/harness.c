/* Runs the compiled box under valgrind's memcheck with the secret bits marked undefined.
 * Memcheck follows undefined bits through every operation and reports a jump or an address that depends on one:
 * exactly what a secret must never do. Cases differ in which bits are secret and in how the call ends. */

#include <stdbool.h>
#include <stddef.h>
#include <stdint.h>
#include <stdio.h>
#include <string.h>
#include <valgrind/memcheck.h>

/* Opens a box over `words`, gives it the positions and the row, and makes the call.
 * Answers 0 for a grant, else the refusal's number. */
typedef uint32_t call(uint32_t *words, size_t words_len, const uint32_t *positions, size_t positions_len, const uint32_t *row, size_t row_len,
                      uint32_t r, uint32_t d, uint32_t t);
call loaded, sealed;

enum { MOST = 1024, MEMORY = 16384, ALL = 0xffffffff };

struct box {
    uint32_t r, d, t;
};

enum reader { LOAD, SEAL };

/* What a box is given: each word, and which of its bits are secret. */
struct input {
    size_t length;
    uint32_t word[MOST];
    uint32_t secret[MOST];
};

static uint32_t row_words(struct box b) { return (b.r + 31) / 32; }
static uint32_t row_place(struct box b) { return 2 * b.d > b.t ? 2 * b.d : b.t; }
static uint32_t key_address(struct box b) { return row_place(b) + row_words(b); }
static uint32_t out_address(struct box b) { return key_address(b) + 2 * b.d; }
static uint32_t position_count(struct box b, enum reader reader) { return reader == LOAD ? 2 * b.d : b.t; }

static uint32_t some_word(uint32_t i)
{
    return (i + 1) * 2654435761u ^ (i + 7) * 40503u << 11;
}

/* A row of secret bits; the bits past its end are 0, and public. */
static void secret_row(struct input *in, struct box b, const uint32_t *row)
{
    in->length = row_place(b) + row_words(b);
    for (uint32_t i = 0; i < row_words(b); i++) {
        uint32_t bits = b.r - 32 * i;
        uint32_t mask = bits < 32 ? (1u << bits) - 1 : ALL;
        in->word[row_place(b) + i] = row[i] & mask;
        in->secret[row_place(b) + i] = mask;
    }
}

static void some_row(struct input *in, struct box b)
{
    uint32_t row[MOST];
    for (uint32_t i = 0; i < row_words(b); i++)
        row[i] = some_word(i);
    secret_row(in, b, row);
}

/* Positions that are told apart by their public bits, so that no secret bit can change a verdict.
 * Place i has i in the bits from `shift` on; the bits of `secret` hold anything. */
static void positions(struct input *in, struct box b, uint32_t shift, uint32_t secret)
{
    for (uint32_t i = 0; i < b.t; i++) {
        in->word[i] = i << shift | (some_word(i) & secret);
        in->secret[i] = secret;
    }
}

static uint32_t bit(const uint32_t *row, uint32_t j)
{
    return row[j / 32] >> j % 32 & 1;
}

/* Bit j of the product of d positions, each times `power`, and a row. */
static uint32_t product_bit(struct box b, const uint32_t *position, uint32_t power, const uint32_t *row, uint32_t j)
{
    uint32_t sum = 0;
    for (uint32_t i = 0; i < b.d; i++)
        sum ^= bit(row, (j + b.r - position[i] * power % b.r) % b.r);
    return sum;
}

/* The row whose product with the first half is bit 0 alone. To square a row is to double its positions; where r is odd, and 2 to the power m is 1 modulo r,
 * a row to the power 2^m is that row, and where r is a power of two, a row of odd weight to the power r is 1. So an inverse is a product of such squares. */
static void inverse(struct input *in, struct box b)
{
    uint32_t row[MOST] = {1}, next[MOST];
    for (uint32_t power = b.r % 2 ? 2 : 1; power != b.r % 2; power = 2 * power % b.r) {
        memset(next, 0, sizeof next);
        for (uint32_t j = 0; j < b.r; j++)
            next[j / 32] |= product_bit(b, in->word, power, row, j) << j % 32;
        memcpy(row, next, sizeof row);
    }
    secret_row(in, b, row);
}

/* A key whose positions are told apart, in each half, by their public bits, as those of a seal are; its row is secret. */
static void key(struct input *in, struct box b, uint32_t shift, uint32_t secret)
{
    for (uint32_t i = 0; i < 2 * b.d; i++) {
        in->word[i] = i % b.d << shift | (some_word(i) & secret);
        in->secret[i] = secret;
    }
    inverse(in, b);
}

static void public_word(struct input *in, uint32_t place, uint32_t word)
{
    in->word[place] = word;
    in->secret[place] = 0;
}

static void hide_everything(struct input *in)
{
    for (size_t i = 0; i < in->length; i++)
        in->secret[i] = ALL;
}

/* Bit j of the row in OUT that a grant must leave. */
static uint32_t expected_bit(const struct input *in, struct box b, enum reader reader, uint32_t j)
{
    const uint32_t *row = in->word + row_place(b);
    if (reader == LOAD)
        return product_bit(b, in->word + b.d, 1, row, j);
    uint32_t sum = 0;
    for (uint32_t i = 0; i < b.t; i++) {
        uint32_t p = in->word[i];
        sum ^= p < b.r ? p == j : bit(row, (j + 2 * b.r - p) % b.r);
    }
    return sum;
}

static int passed, failed;

static void tell(const char *label, enum reader reader, const char *wrong)
{
    printf("%s, %s: %s%s\n", reader == LOAD ? "load" : "seal", label, wrong ? "FAILED, " : "ok", wrong ? wrong : "");
    *(wrong ? &failed : &passed) += 1;
}

/* Whether OUT and KEY are what they must be, and some of OUT secret: else nothing secret was at work. */
static const char *judge_zones(const struct input *in, struct box b, enum reader reader, uint32_t *words)
{
    static uint32_t shadow[MEMORY];
    uint32_t tainted = 0;
    VALGRIND_GET_VBITS(words, shadow, sizeof shadow);
    VALGRIND_MAKE_MEM_DEFINED(words, MEMORY * sizeof *words);
    for (uint32_t w = 0; w < row_words(b); w++)
        tainted |= shadow[out_address(b) + w];
    for (uint32_t j = 0; j < b.r; j++)
        if (bit(words + out_address(b), j) != expected_bit(in, b, reader, j))
            return "OUT is wrong";
    if (b.r % 32 && words[out_address(b) + row_words(b) - 1] >> b.r % 32)
        return "a tail bit of OUT is set";
    for (uint32_t i = 0; i < 2 * b.d; i++)
        if (words[key_address(b) + i] != (reader == LOAD ? in->word[i] : 0))
            return "KEY is wrong";
    return tainted ? NULL : "nothing secret reached OUT";
}

/* Makes the call under memcheck and looks at what it reported: no more than `allowed` times. */
static void try_case(const char *label, enum reader reader, struct box b, const struct input *in, uint32_t verdict, unsigned allowed)
{
    static uint32_t words[MEMORY], given[MOST];
    static char wrong[80];
    call *made = reader == LOAD ? loaded : sealed;
    memcpy(given, in->word, sizeof given);
    VALGRIND_SET_VBITS(given, in->secret, in->length * sizeof *given);
    unsigned before = VALGRIND_COUNT_ERRORS;
    uint32_t answer = made(words, MEMORY, given, position_count(b, reader), given + row_place(b), row_words(b), b.r, b.d, b.t);
    unsigned reported = VALGRIND_COUNT_ERRORS - before;
    VALGRIND_MAKE_MEM_DEFINED(&answer, sizeof answer);
    const char *zones = verdict == 0 ? judge_zones(in, b, reader, words) : NULL;
    VALGRIND_MAKE_MEM_DEFINED(words, sizeof words);
    VALGRIND_MAKE_MEM_DEFINED(given, sizeof given);
    if (answer != verdict)
        snprintf(wrong, sizeof wrong, "answered %u in place of %u", answer, verdict);
    else if (reported > allowed)
        snprintf(wrong, sizeof wrong, "%u uses of a secret reported, %u allowed", reported, allowed);
    else if (zones)
        snprintf(wrong, sizeof wrong, "%s", zones);
    tell(label, reader, answer != verdict || reported > allowed || zones ? wrong : NULL);
}

/* The verdict follows from public bits alone. With one position nothing at all may be reported. With several, the outcomes of the two checks
 * of positions are masks joined over all of them, which memcheck no longer sees to be settled: their two branches may be reported, the tail's may not. */
static void settled_seals(void)
{
    struct box wide = {10000, 3, 1}, even = {512, 3, 1}, many = {600, 5, 16};
    struct input in = {0};

    positions(&in, wide, 0, 0x3fff);
    some_row(&in, wide);
    try_case("a position secret in every bit", SEAL, wide, &in, 0, 0);

    positions(&in, even, 0, 0x3ff);
    some_row(&in, even);
    try_case("a position secret in every bit, a row of whole words", SEAL, even, &in, 0, 0);

    positions(&in, many, 6, 0x3f);
    some_row(&in, many);
    try_case("positions secret in their low bits", SEAL, many, &in, 0, 2);

    positions(&in, many, 0, 0x3f0);
    try_case("positions secret in their high bits", SEAL, many, &in, 0, 2);

    public_word(&in, 9, 2 * many.r);
    try_case("refused by 10 at a public place", SEAL, many, &in, 10, 1);

    positions(&in, many, 0, 0x3f0);
    public_word(&in, 3, 3);
    public_word(&in, 9, 3);
    try_case("refused by 11 at a public place", SEAL, many, &in, 11, 2);

    positions(&in, many, 0, 0x3f0);
    in.word[in.length - 1] |= 1u << 31;
    try_case("refused by 12 by a public bit", SEAL, many, &in, 12, 2);
}

/* Every bit is secret, the verdict too. One branch on the outcome of each check that is reached is what a verdict costs. */
static void open_seals(void)
{
    struct box many = {600, 5, 16};
    struct input in = {0};

    positions(&in, many, 0, 0x3f0);
    some_row(&in, many);
    hide_everything(&in);
    try_case("everything secret, granted", SEAL, many, &in, 0, 3);

    in.word[9] = 2 * many.r;
    try_case("everything secret, refused by 10", SEAL, many, &in, 10, 1);

    in.word[9] = in.word[3];
    try_case("everything secret, refused by 11", SEAL, many, &in, 11, 2);

    in.word[9] = 9;
    in.word[in.length - 1] |= 1u << 31;
    try_case("everything secret, refused by 12", SEAL, many, &in, 12, 3);
}

/* The same for load. Whether the row is the inverse always follows from secret bits, so the branch on that may be reported wherever it is reached.
 * One branch refuses pairs of either half, so that nothing tells in which half one was found. */
static void settled_loads(void)
{
    struct box one = {512, 1, 1}, even = {512, 5, 1}, many = {601, 5, 16};
    struct input in = {0};

    key(&in, one, 0, 0x1ff);
    try_case("positions secret in every bit, a row of whole words", LOAD, one, &in, 0, 1);

    in.word[row_place(one)] ^= 1;
    try_case("one bit of the row is wrong", LOAD, one, &in, 9, 1);

    key(&in, even, 6, 0x3f);
    try_case("positions secret in their low bits", LOAD, even, &in, 0, 3);

    key(&in, many, 0, 0x1f8);
    try_case("positions secret in their high bits", LOAD, many, &in, 0, 3);

    public_word(&in, 9, many.r);
    try_case("refused by 6 at a public place", LOAD, many, &in, 6, 1);

    key(&in, many, 0, 0x1f8);
    public_word(&in, 1, 3);
    public_word(&in, 3, 3);
    try_case("refused by 7 at a public place of the first half", LOAD, many, &in, 7, 2);

    key(&in, many, 0, 0x1f8);
    public_word(&in, 6, 3);
    public_word(&in, 8, 3);
    try_case("refused by 7 at a public place of the second half", LOAD, many, &in, 7, 2);

    key(&in, many, 0, 0x1f8);
    in.word[in.length - 1] |= 1u << 31;
    try_case("refused by 8 by a public bit", LOAD, many, &in, 8, 2);

    key(&in, many, 0, 0x1f8);
    in.word[row_place(many)] ^= 1;
    try_case("refused by 9", LOAD, many, &in, 9, 3);
}

/* Every bit is secret, the verdict too. */
static void open_loads(void)
{
    struct box many = {601, 5, 16};
    struct input in = {0};

    key(&in, many, 0, 0x1f8);
    hide_everything(&in);
    try_case("everything secret, granted", LOAD, many, &in, 0, 4);

    uint32_t last = in.word[9];
    in.word[9] = many.r;
    try_case("everything secret, refused by 6", LOAD, many, &in, 6, 1);

    in.word[9] = in.word[6];
    try_case("everything secret, refused by 7", LOAD, many, &in, 7, 2);

    in.word[9] = last;
    in.word[row_place(many)] ^= 1;
    try_case("everything secret, refused by 9", LOAD, many, &in, 9, 4);

    in.word[in.length - 1] |= 1u << 31;
    try_case("everything secret, refused by 8", LOAD, many, &in, 8, 3);
}

int main(void)
{
    if (!RUNNING_ON_VALGRIND) {
        fprintf(stderr, "harness: this is to be run under valgrind\n");
        return 2;
    }
    settled_seals();
    open_seals();
    settled_loads();
    open_loads();
    printf("%d passed, %d failed\n", passed, failed);
    return failed ? 1 : 0;
}
