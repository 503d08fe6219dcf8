/* JSON by jsmn: tokens in a lent array, nothing converted. Without parent links its time grows with the square of a long list. */
#define JSMN_PARENT_LINKS
#define JSMN_STATIC
#include <jsmn.h>

#include "peers.h"

#include <stdlib.h>

typedef struct {
    const char *text;
    size_t bytes;
    unsigned room;
    jsmntok_t tokens[];
} peer;

static void *make(const uint8_t *message, size_t bytes, size_t nodes)
{
    peer *made = malloc(sizeof *made + nodes * sizeof made->tokens[0]);
    if (made) {
        made->text = (const char *)message;
        made->bytes = bytes;
        made->room = (unsigned)nodes;
    }
    return made;
}

static int tokens_of(peer *made)
{
    jsmn_parser parser;
    jsmn_init(&parser);
    return jsmn_parse(&parser, made->text, made->bytes, made->tokens, made->room);
}

static int decode(void *made)
{
    return tokens_of(made) > 0;
}

static size_t nodes(void *made)
{
    int tokens = tokens_of(made);
    return tokens > 0 ? (size_t)tokens : 0;
}

static void release(void *made)
{
    free(made);
}

const peer_functions peer_jsmn = {make, decode, nodes, release};
