/* A ground rig in a page: decodes two messages, compares them, prints their texts or refusals, and reads a sensor word of the first.
 *   cc -std=c11 -Iinclude examples/rig.c crates/ubfa/out/libubfa.a -o rig && ./rig '{#2 &1 &}$' '1 >a{#2 &a&}$'
 * Without arguments it runs on messages of its own. */
#include <inttypes.h>
#include <stdio.h>
#include <string.h>

#include "ubfa.h"

enum { ROWS = 1024, STACK = 256, MARKS = 64, TEXT = 16384 };

/* A message as decoded: the slice, its row table and what the decoder answered. */
struct decoded {
    const uint8_t *message;
    size_t bytes;
    uint32_t rows[ROWS * UBFA_ROW_WORDS];
    ubfa_decoded answer;
};

/* Working memory, which every call that does not refuse it leaves zero. */
static uint32_t stack[STACK], marks[MARKS], registers[UBFA_REGISTER_WORDS], scratch[2 * ROWS];

static void decode(struct decoded *d, const void *message, size_t bytes)
{
    d->message = message;
    d->bytes = bytes;
    d->answer = ubfa_decode(d->message, d->bytes, d->rows, ROWS * UBFA_ROW_WORDS, stack, STACK, marks, MARKS, registers, UBFA_REGISTER_WORDS);
}

static void print_text(const struct decoded *d)
{
    static uint8_t text[TEXT];
    if (d->answer.number != 0) {
        printf("refused %" PRIu32 " at %" PRIu32 "\n", d->answer.number, d->answer.place);
        return;
    }
    ubfa_written w = ubfa_write(d->message, d->bytes, d->rows, ROWS * UBFA_ROW_WORDS, d->answer.rows, d->answer.root, scratch, 2 * ROWS, text, TEXT);
    if (w.number != 0) {
        printf("text refused %" PRIu32 "\n", w.number);
        return;
    }
    fwrite(text, 1, w.bytes, stdout);
    putchar('\n');
}

static void print_compared(const struct decoded *a, const struct decoded *b)
{
    if (a->answer.number != 0 || b->answer.number != 0)
        return;
    ubfa_compared c = ubfa_compare(a->message, a->bytes, a->rows, ROWS * UBFA_ROW_WORDS, a->answer.rows, a->answer.root,
                                   b->message, b->bytes, b->rows, ROWS * UBFA_ROW_WORDS, b->answer.rows, b->answer.root, scratch, 2 * ROWS);
    if (c.number != 0)
        printf("comparison refused %" PRIu32 "\n", c.number);
    else
        printf("%s\n", c.equal ? "equal" : "different");
}

static void print_word(const struct decoded *d, uint64_t k)
{
    ubfa_word w = ubfa_read_word(d->message, d->bytes, d->rows, ROWS * UBFA_ROW_WORDS, d->answer.rows, d->answer.root, k);
    if (w.number != 0)
        printf("word %" PRIu64 " refused %" PRIu32 "\n", k, w.number);
    else
        printf("word %" PRIu64 " is %" PRId64 "\n", k, w.value);
}

static void check(const void *first, size_t first_bytes, const void *second, size_t second_bytes)
{
    static struct decoded a, b;
    decode(&a, first, first_bytes);
    decode(&b, second, second_bytes);
    print_text(&a);
    print_text(&b);
    print_compared(&a, &b);
    print_word(&a, 0);
}

int main(int argc, char **argv)
{
    if (argc == 3) {
        check(argv[1], strlen(argv[1]), argv[2], strlen(argv[2]));
        return 0;
    }
    /* A sensor block outright and through registers, and the same bytes in the other order. */
    static const char outright[] = "2 ~\x01\x02~`u16be`$", through[] = "2 >n n~\x01\x02~>b b`u16be`$", little[] = "2 ~\x01\x02~`u16le`$";
    check(outright, sizeof outright - 1, through, sizeof through - 1);
    check(little, sizeof little - 1, outright, sizeof outright - 1);
    /* A list and a message that is refused; the empty slice still has a pointer. */
    static const char list[] = "#2 &1 &$", popped[] = "1{>a}$";
    check(list, sizeof list - 1, popped, sizeof popped - 1);
    check(popped, sizeof popped - 1, "", 0);
    return 0;
}
