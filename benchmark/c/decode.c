/* The decoder: one pass over the bytes, with a class for each and a function for each class. */
#include "variant.h"

/* What a byte does where an item may start. */
enum class {
    PUSH, WHITE, DIGIT, MINUS, ATOM_MARK, STRING_MARK, TAG_MARK, COMMENT,
    COUNTED, OPEN, CLOSE, EMPTY, CONS, STORE, END, COMMA, CLASSES,
};

static const uint8_t classes[256] = {
    ['\t'] = WHITE, ['\n'] = WHITE, ['\r'] = WHITE, [' '] = WHITE,
    ['0'] = DIGIT, ['1'] = DIGIT, ['2'] = DIGIT, ['3'] = DIGIT, ['4'] = DIGIT,
    ['5'] = DIGIT, ['6'] = DIGIT, ['7'] = DIGIT, ['8'] = DIGIT, ['9'] = DIGIT,
    ['-'] = MINUS, ['\''] = ATOM_MARK, ['"'] = STRING_MARK, ['`'] = TAG_MARK, ['%'] = COMMENT, ['~'] = COUNTED,
    ['{'] = OPEN, ['}'] = CLOSE, ['#'] = EMPTY, ['&'] = CONS, ['>'] = STORE, ['$'] = END, [','] = COMMA,
};

/*
 * The machine. `at` is the next item's first byte, or after a refusal the refusal's place. `floor` is the most recently noted depth,
 * 0 if there is none; each mark holds the floor that was before it. A register holds a row number and one, or 0.
 */
typedef struct {
    input message;
    const uint8_t *at;
    uint32_t *rows, *stack, *marks, *registers;
    uint32_t used, row_room, depth, stack_room, floor, noted, mark_room;
} machine;

static inline uint32_t refuse(machine *m, uint32_t number, const uint8_t *place)
{
    m->at = place;
    return number;
}

static inline void make_row(machine *m, uint32_t kind, uint32_t first, uint32_t second, uint32_t third)
{
    uint32_t *row = m->rows + (size_t)UBFA_ROW_WORDS * m->used;
    row[0] = kind;
    row[1] = first;
    row[2] = second;
    row[3] = third;
    m->used++;
}

static inline const uint32_t *row_at(const machine *m, uint32_t number)
{
    return m->rows + (size_t)UBFA_ROW_WORDS * number;
}

/* A new row on the stack, and on to `next`: 12, 13. */
static inline uint32_t push_row(machine *m, uint32_t kind, uint32_t first, uint32_t second, const uint8_t *next)
{
    if (m->used == m->row_room)
        return refuse(m, 12, m->at);
    if (m->depth == m->stack_room)
        return refuse(m, 13, m->at);
    m->stack[m->depth++] = m->used;
    make_row(m, kind, first, second, 0);
    m->at = next;
    return 0;
}

/* A new row in the place of the value on top, and on to `next`: 12. */
static inline uint32_t replace_top(machine *m, uint32_t kind, uint32_t first, uint32_t second, uint32_t third, const uint8_t *next)
{
    if (m->used == m->row_room)
        return refuse(m, 12, m->at);
    m->stack[m->depth - 1] = m->used;
    make_row(m, kind, first, second, third);
    m->at = next;
    return 0;
}

/* An integer whose digits start at `at`, where one is: 3, 5, 12, 13. A blank after it is done with it. */
static inline uint32_t integer(machine *m, const uint8_t *at, uint64_t negative)
{
    digits read = read_digits(&m->message, at, (uint64_t)INT64_MAX + negative);
    if (read.number)
        return refuse(m, read.number, read.number == 3 ? m->message.end : m->at);
    uint64_t value = (read.value ^ (0 - negative)) + negative;
    const uint8_t *next = *read.after == ' ' ? read.after + 1 : read.after;
    return push_row(m, INTEGER, (uint32_t)(value >> 32), (uint32_t)value, next);
}

/* `-`, which wants a digit: 3, 4, then as any integer. */
static inline uint32_t minus(machine *m)
{
    const uint8_t *at = m->at + 1;
    if (at == m->message.end)
        return refuse(m, 3, at);
    if (classes[*at] != DIGIT)
        return refuse(m, 4, at);
    return integer(m, at, 1);
}

/* The closing mark, or a refusal and its place. */
typedef struct {
    const uint8_t *at;
    uint32_t number;
} closing;

/* The mark that closes the text whose first byte is at `at`: 3, 4. */
static inline closing close_text(const uint8_t *at, const uint8_t *end, uint8_t mark)
{
    search s = {.end = end, .mark = mark};
    for (;;) {
        at = special(&s, at);
        if (at == end)
            return (closing){end, 3};
        if (*at == mark)
            return (closing){at, 0};
        if (++at == end)
            return (closing){end, 3};
        if (*at != '\\' && *at != mark)
            return (closing){at, 4};
        at++;
    }
}

/* Atom or string: 3, 4, 12, 13. */
static inline uint32_t spelled(machine *m, uint32_t kind, uint8_t mark)
{
    const uint8_t *first = m->at + 1;
    closing close = close_text(first, m->message.end, mark);
    if (close.number)
        return refuse(m, close.number, close.at);
    return push_row(m, kind, (uint32_t)(first - m->message.start), (uint32_t)(close.at - first), close.at + 1);
}

/* Tag: 3, 4, 6, 12. */
static inline uint32_t tag(machine *m)
{
    const uint8_t *first = m->at + 1;
    closing close = close_text(first, m->message.end, '`');
    if (close.number)
        return refuse(m, close.number, close.at);
    if (m->depth == m->floor)
        return refuse(m, 6, m->at);
    uint32_t inner = m->stack[m->depth - 1];
    return replace_top(m, TAG, (uint32_t)(first - m->message.start), (uint32_t)(close.at - first), inner, close.at + 1);
}

/* Comment: 3, 4. */
static inline uint32_t comment(machine *m)
{
    closing close = close_text(m->at + 1, m->message.end, '%');
    if (close.number)
        return refuse(m, close.number, close.at);
    m->at = close.at + 1;
    return 0;
}

/* `~`: 6, 7, 8, 3, 4, 12. The closing `~` is wanted too, so a count of all bytes left is too many. */
static inline uint32_t counted(machine *m)
{
    if (m->depth == m->floor)
        return refuse(m, 6, m->at);
    const uint32_t *top = row_at(m, m->stack[m->depth - 1]);
    if (top[0] != INTEGER)
        return refuse(m, 7, m->at);
    if (top[1] >> 31)
        return refuse(m, 8, m->at);
    const uint8_t *first = m->at + 1;
    if (top[1] || top[2] >= (size_t)(m->message.end - first))
        return refuse(m, 3, m->message.end);
    uint32_t count = top[2];
    if (first[count] != '~')
        return refuse(m, 4, first + count);
    return replace_top(m, BINARY, (uint32_t)(first - m->message.start), count, 0, first + count + 1);
}

/* `{`: 14. */
static inline uint32_t open(machine *m)
{
    if (m->noted == m->mark_room)
        return refuse(m, 14, m->at);
    m->marks[m->noted++] = m->floor;
    m->floor = m->depth;
    m->at++;
    return 0;
}

/* `}`: 10, 12, 13. Nothing pops below the floor, so 17 cannot come. With fields the depth falls or stays, so 13 is for none. */
static inline uint32_t close(machine *m)
{
    if (m->noted == 0)
        return refuse(m, 10, m->at);
    if (m->row_room - m->used <= m->depth - m->floor)
        return refuse(m, 12, m->at);
    if (m->floor == m->stack_room)
        return refuse(m, 13, m->at);
    uint32_t depth = m->depth;
    make_row(m, TUPLE_END, 0, 0, 0);
    while (depth != m->floor)
        make_row(m, FIELD, m->stack[--depth], m->used - 1, 0);
    m->stack[depth] = m->used - 1;
    m->depth = depth + 1;
    m->floor = m->marks[--m->noted];
    m->at++;
    return 0;
}

/* `&`: 6, 7, 12. */
static inline uint32_t cons(machine *m)
{
    if (m->depth - m->floor < 2)
        return refuse(m, 6, m->at);
    uint32_t item = m->stack[m->depth - 1], list = m->stack[m->depth - 2], kind = row_at(m, list)[0];
    if (kind != CELL && kind != EMPTY_LIST)
        return refuse(m, 7, m->at);
    m->depth--;
    return replace_top(m, CELL, item, list, 0, m->at + 1);
}

/* `>` and its register: 3, 4, 6. */
static inline uint32_t store(machine *m)
{
    const uint8_t *name = m->at + 1;
    if (name == m->message.end)
        return refuse(m, 3, name);
    if (classes[*name] != PUSH)
        return refuse(m, 4, name);
    if (m->depth == m->floor)
        return refuse(m, 6, m->at);
    m->registers[*name] = m->stack[--m->depth] + 1;
    m->at += 2;
    return 0;
}

/* A register: 9, 13. */
static inline uint32_t push(machine *m)
{
    uint32_t held = m->registers[*m->at];
    if (held == 0)
        return refuse(m, 9, m->at);
    if (m->depth == m->stack_room)
        return refuse(m, 13, m->at);
    m->stack[m->depth++] = held - 1;
    m->at++;
    return 0;
}

/* `$`: 10, 11. */
static inline uint32_t end(machine *m)
{
    if (m->noted != 0)
        return refuse(m, 10, m->at);
    if (m->depth != 1)
        return refuse(m, 11, m->at);
    m->at++;
    return 0;
}

/* Does the items up to `$`: 0, or the refusal. */
static inline uint32_t run(machine *m)
{
    uint32_t number = 0;
    while (number == 0) {
        if (m->at == m->message.end)
            return refuse(m, 3, m->at);
        switch (classes[*m->at] % CLASSES) { /* no class is larger, but so the compiler knows it */
        case PUSH: number = push(m); break;
        case WHITE: m->at++; break;
        case DIGIT: number = integer(m, m->at, 0); break;
        case MINUS: number = minus(m); break;
        case ATOM_MARK: number = spelled(m, ATOM, '\''); break;
        case STRING_MARK: number = spelled(m, STRING, '"'); break;
        case TAG_MARK: number = tag(m); break;
        case COMMENT: number = comment(m); break;
        case COUNTED: number = counted(m); break;
        case OPEN: number = open(m); break;
        case CLOSE: number = close(m); break;
        case EMPTY: number = push_row(m, EMPTY_LIST, 0, 0, m->at + 1); break;
        case CONS: number = cons(m); break;
        case STORE: number = store(m); break;
        case END: return end(m);
        case COMMA: return refuse(m, 4, m->at);
        }
    }
    return number;
}

static uint32_t at_most(size_t count, uint32_t most)
{
    return count < most ? (uint32_t)count : most;
}

ubfa_decoded NAMED(decode)(const uint8_t *message, size_t message_bytes,
                           uint32_t *rows, size_t row_words,
                           uint32_t *stack, size_t stack_words,
                           uint32_t *marks, size_t mark_words,
                           uint32_t *registers, size_t register_words)
{
    if (message_bytes > UBFA_MESSAGE_BYTES)
        return (ubfa_decoded){1, 0, 0, 0};
    if (register_words < UBFA_REGISTER_WORDS)
        return (ubfa_decoded){2, 0, 0, 0};
    clear(registers, register_words);
    machine m = {
        .message = input_of(message, message_bytes), .at = message,
        .rows = rows, .row_room = at_most(row_words / UBFA_ROW_WORDS, UBFA_ROWS),
        .stack = stack, .stack_room = at_most(stack_words, UBFA_STACK_WORDS),
        .marks = marks, .mark_room = at_most(mark_words, UBFA_MARKS),
        .registers = registers,
    };
    uint32_t number = run(&m);
    uint32_t place = (uint32_t)(m.at - message);
    uint32_t root = number == 0 ? stack[0] : 0;
    uint32_t used = number == 0 ? m.used : 0;
    clear(rows + (size_t)UBFA_ROW_WORDS * used, row_words - (size_t)UBFA_ROW_WORDS * used);
    clear(stack, stack_words);
    clear(marks, mark_words);
    clear(registers, UBFA_REGISTER_WORDS);
    return (ubfa_decoded){number, place, root, used};
}
