/* Careful C: every byte is read by itself, once it is known to be there; the range is checked at every digit. */
#ifndef CAREFUL_BYTES_H
#define CAREFUL_BYTES_H

/* A message, from its first byte to the place after its last. */
typedef struct {
    const uint8_t *start, *end;
} input;

static inline input input_of(const uint8_t *start, size_t count)
{
    return (input){start, start + count};
}

/* A search in quoted text: the place after its last byte, and the mark. */
typedef struct {
    const uint8_t *end;
    uint8_t mark;
} search;

/* The first byte from `at` on that is the mark or a backslash, or the end. */
static inline const uint8_t *special(search *s, const uint8_t *at)
{
    while (at != s->end && *at != s->mark && *at != '\\')
        at++;
    return at;
}

/* Reads the digits from `at` on, where one is: 3 where the message ends in them, 5 where their value is over `most`. */
static inline digits read_digits(const input *message, const uint8_t *at, uint64_t most)
{
    uint64_t value = 0;
    uint32_t number = 0;
    for (; at != message->end; at++) {
        uint64_t digit = (uint8_t)(*at - '0');
        if (digit > 9)
            return (digits){value, at, number};
        if (value > most / 10 || value * 10 > most - digit)
            number = 5;
        else
            value = value * 10 + digit;
    }
    return (digits){0, at, 3};
}

/* Decimal digits of a number. */
static inline uint32_t digits_of(uint64_t number)
{
    uint32_t count = 1;
    for (; number >= 10; number /= 10)
        count++;
    return count;
}

/* Puts the digits of a number and gives the place after them. */
static inline uint8_t *put_digits(uint8_t *at, uint64_t number)
{
    uint8_t *end = at + digits_of(number);
    for (uint8_t *place = end; place != at; number /= 10)
        *--place = (uint8_t)('0' + number % 10);
    return end;
}

#endif
