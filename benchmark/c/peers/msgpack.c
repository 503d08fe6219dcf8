/* MessagePack by msgpack-c: a tree of objects in a zone. The result is kept; its zone is freed and made anew by every call. */
#include <msgpack.h>

#include "peers.h"

#include <stdlib.h>

typedef struct {
    const char *message;
    size_t bytes;
    msgpack_unpacked result;
} peer;

static void *make(const uint8_t *message, size_t bytes, size_t nodes)
{
    (void)nodes;
    peer *made = malloc(sizeof *made);
    if (made) {
        made->message = (const char *)message;
        made->bytes = bytes;
        msgpack_unpacked_init(&made->result);
    }
    return made;
}

static int decode(void *made)
{
    peer *kept = made;
    size_t end = 0;
    msgpack_unpack_return answer = msgpack_unpack_next(&kept->result, kept->message, kept->bytes, &end);
    return answer == MSGPACK_UNPACK_SUCCESS && end == kept->bytes;
}

static size_t nodes_of(const msgpack_object *object)
{
    size_t nodes = 1;
    if (object->type == MSGPACK_OBJECT_ARRAY)
        for (uint32_t at = 0; at < object->via.array.size; at++)
            nodes += nodes_of(&object->via.array.ptr[at]);
    return nodes;
}

static size_t nodes(void *made)
{
    peer *kept = made;
    return decode(made) ? nodes_of(&kept->result.data) : 0;
}

static void release(void *made)
{
    peer *kept = made;
    msgpack_unpacked_destroy(&kept->result);
    free(kept);
}

const peer_functions peer_msgpack = {make, decode, nodes, release};
