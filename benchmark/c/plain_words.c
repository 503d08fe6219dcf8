/* Loops that know the format and judge nothing: what reading words costs by itself. Each gives the sum of the words. */
#include <stddef.h>
#include <stdint.h>

/* The value of 16 bits in two's complement. */
static inline int64_t signed_16(uint32_t word)
{
    return (int64_t)(word ^ 0x8000) - 0x8000;
}

int64_t plain_u8(const uint8_t *bytes, size_t count)
{
    int64_t sum = 0;
    for (size_t at = 0; at < count; at++)
        sum += bytes[at];
    return sum;
}

int64_t plain_i16be(const uint8_t *bytes, size_t count)
{
    int64_t sum = 0;
    for (size_t at = 0; at + 2 <= count; at += 2)
        sum += signed_16((uint32_t)bytes[at] << 8 | bytes[at + 1]);
    return sum;
}

int64_t plain_i16le(const uint8_t *bytes, size_t count)
{
    int64_t sum = 0;
    for (size_t at = 0; at + 2 <= count; at += 2)
        sum += signed_16((uint32_t)bytes[at + 1] << 8 | bytes[at]);
    return sum;
}

int64_t plain_u32be(const uint8_t *bytes, size_t count)
{
    int64_t sum = 0;
    for (size_t at = 0; at + 4 <= count; at += 4)
        sum += (uint32_t)bytes[at] << 24 | (uint32_t)bytes[at + 1] << 16 | (uint32_t)bytes[at + 2] << 8 | bytes[at + 3];
    return sum;
}

int64_t plain_u32le(const uint8_t *bytes, size_t count)
{
    int64_t sum = 0;
    for (size_t at = 0; at + 4 <= count; at += 4)
        sum += (uint32_t)bytes[at + 3] << 24 | (uint32_t)bytes[at + 2] << 16 | (uint32_t)bytes[at + 1] << 8 | bytes[at];
    return sum;
}
