/* CBOR by libcbor: a tree of items on the heap, freed again within the call. */
#include <cbor.h>

#include "peers.h"

#include <stdlib.h>

typedef struct {
    const uint8_t *message;
    size_t bytes;
} peer;

static void *make(const uint8_t *message, size_t bytes, size_t nodes)
{
    (void)nodes;
    peer *made = malloc(sizeof *made);
    if (made)
        *made = (peer){message, bytes};
    return made;
}

static int decode(void *made)
{
    peer *kept = made;
    struct cbor_load_result result;
    cbor_item_t *root = cbor_load(kept->message, kept->bytes, &result);
    if (!root)
        return 0;
    cbor_decref(&root);
    return result.read == kept->bytes;
}

static size_t nodes_of(cbor_item_t *item)
{
    size_t nodes = 1;
    if (cbor_isa_array(item))
        for (size_t at = 0; at < cbor_array_size(item); at++)
            nodes += nodes_of(cbor_array_handle(item)[at]);
    return nodes;
}

static size_t nodes(void *made)
{
    peer *kept = made;
    struct cbor_load_result result;
    cbor_item_t *root = cbor_load(kept->message, kept->bytes, &result);
    size_t nodes = root ? nodes_of(root) : 0;
    if (root)
        cbor_decref(&root);
    return nodes;
}

static void release(void *made)
{
    free(made);
}

const peer_functions peer_cbor = {make, decode, nodes, release};
