/* Decoders of other formats, all behind the same four functions. */
#ifndef PEERS_H
#define PEERS_H

#include <stddef.h>
#include <stdint.h>

#ifdef __cplusplus
extern "C" {
#endif

typedef struct {
    /* Keeps a message that has so many nodes, and makes once what the decoder lets one keep between calls. Null without memory. */
    void *(*make)(const uint8_t *message, size_t bytes, size_t nodes);
    /* Decodes it; this is what is timed. 1, or 0 where the message is refused. */
    int (*decode)(void *made);
    /* Decodes it and counts the nodes of what came out; 0 where the message is refused. */
    size_t (*nodes)(void *made);
    void (*release)(void *made);
} peer_functions;

extern const peer_functions peer_jsmn, peer_simdjson, peer_cbor, peer_msgpack;

#ifdef __cplusplus
}
#endif

#endif
