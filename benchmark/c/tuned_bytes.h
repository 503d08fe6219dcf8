/* Tuned C: eight bytes at once or memchr in quoted text, no check for each digit that is read, digits written in pairs. */
#ifndef TUNED_BYTES_H
#define TUNED_BYTES_H

/*
 * A message, from its first byte to the place after its last. `last_digits` is where the digits start in which it ends, or its end: a
 * loop over digits that starts before stops by itself.
 */
typedef struct {
    const uint8_t *start, *end, *last_digits;
} input;

static inline input input_of(const uint8_t *start, size_t count)
{
    const uint8_t *end = start + count, *last_digits = end;
    while (last_digits != start && (uint8_t)(last_digits[-1] - '0') <= 9)
        last_digits--;
    return (input){start, end, last_digits};
}

/* Eight bytes as one number, the first least significant on every machine; compilers make one load of it where they can. */
static inline uint64_t eight_bytes(const uint8_t *at)
{
    return (uint64_t)at[0] | (uint64_t)at[1] << 8 | (uint64_t)at[2] << 16 | (uint64_t)at[3] << 24
         | (uint64_t)at[4] << 32 | (uint64_t)at[5] << 40 | (uint64_t)at[6] << 48 | (uint64_t)at[7] << 56;
}

#define ONES UINT64_C(0x0101010101010101)
#define HIGHS UINT64_C(0x8080808080808080)

/* The high bit of each byte that equals `byte`; the lowest set bit is exact, bits above it may not be. */
static inline uint64_t equal_bytes(uint64_t eight, uint8_t byte)
{
    uint64_t differences = eight ^ ONES * byte;
    return (differences - ONES) & ~differences & HIGHS;
}

/* The number of the byte whose high bit is the lowest set one. */
static inline size_t first_marked(uint64_t highs)
{
    uint64_t lowest = highs >> 7;
    return (size_t)(((lowest - 1) & ~lowest & ONES) * ONES >> 56);
}

/*
 * A search in quoted text: the place after its last byte, and the mark. `next` is the mark that was found last by a search for it alone,
 * null before: each is searched for once, so that the time stays in proportion to the text, however many escapes it has.
 */
typedef struct {
    const uint8_t *end;
    uint8_t mark;
    const uint8_t *next;
} search;

/*
 * The first byte from `at` on that is the mark or a backslash, or the end. Eight at once is best for names and short texts. In a long
 * one two searches over the same bytes are faster.
 */
static inline const uint8_t *special(search *s, const uint8_t *at)
{
    if (!s->next) {
        const uint8_t *near = s->end - at > 64 ? at + 64 : s->end;
        for (; near - at >= 8; at += 8) {
            uint64_t eight = eight_bytes(at);
            uint64_t found = equal_bytes(eight, s->mark) | equal_bytes(eight, '\\');
            if (found)
                return at + first_marked(found);
        }
        if (near == s->end) {
            while (at != s->end && *at != s->mark && *at != '\\')
                at++;
            return at;
        }
    }
    if (!s->next || s->next < at) {
        const uint8_t *found = memchr(at, s->mark, (size_t)(s->end - at));
        s->next = found ? found : s->end;
    }
    const uint8_t *slash = memchr(at, '\\', (size_t)(s->next - at));
    return slash ? slash : s->next;
}

/* The value of any number of digits, or a value over `most`. */
static uint64_t many_digits(const uint8_t *at, const uint8_t *end, uint64_t most)
{
    uint64_t value = 0;
    for (; at != end; at++) {
        uint64_t digit = (uint8_t)(*at - '0');
        if (value > (most - digit) / 10)
            return most + 1;
        value = value * 10 + digit;
    }
    return value;
}

/*
 * Reads the digits from `at` on, where one is: 3 where the message ends in them, 5 where their value is over `most`. Up to 18 digits are
 * in range, whatever they are.
 */
static inline digits read_digits(const input *message, const uint8_t *at, uint64_t most)
{
    if (at >= message->last_digits)
        return (digits){0, message->end, 3};
    const uint8_t *first = at;
    uint64_t value = (uint8_t)(*at++ - '0');
    for (uint8_t digit; (digit = (uint8_t)(*at - '0')) <= 9; at++)
        value = value * 10 + digit;
    if (at - first > 18) {
        value = many_digits(first, at, most);
        if (value > most)
            return (digits){0, at, 5};
    }
    return (digits){value, at, 0};
}

/* Decimal digits of a number. */
static inline uint32_t digits_of(uint64_t number)
{
    for (uint32_t count = 1;; count += 4, number /= 10000) {
        if (number < 10)
            return count;
        if (number < 100)
            return count + 1;
        if (number < 1000)
            return count + 2;
        if (number < 10000)
            return count + 3;
    }
}

/* Puts the digits of a number and gives the place after them. */
static inline uint8_t *put_digits(uint8_t *at, uint64_t number)
{
    static const char pairs[200] =
        "00010203040506070809101112131415161718192021222324252627282930313233343536373839404142434445464748495051525354555657585960"
        "616263646566676869707172737475767778798081828384858687888990919293949596979899";
    uint8_t *end = at + digits_of(number), *place = end;
    for (; number >= 100; number /= 100)
        memcpy(place -= 2, pairs + 2 * (number % 100), 2);
    if (number >= 10)
        memcpy(place - 2, pairs + 2 * number, 2);
    else
        place[-1] = (uint8_t)('0' + number);
    return end;
}

#endif
