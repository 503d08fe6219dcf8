// JSON by simdjson: a DOM in a parser that is kept, from a text with the padding that it asks for.
#include <simdjson.h>

#include "peers.h"

namespace {

struct Peer {
    simdjson::padded_string text;
    simdjson::dom::parser parser;

    Peer(const uint8_t *message, size_t bytes) : text(reinterpret_cast<const char *>(message), bytes) {}
};

size_t nodes_of(simdjson::dom::element element)
{
    size_t nodes = 1;
    simdjson::dom::array parts;
    if (element.get_array().get(parts) == simdjson::SUCCESS)
        for (simdjson::dom::element part : parts)
            nodes += nodes_of(part);
    return nodes;
}

void *make(const uint8_t *message, size_t bytes, size_t)
{
    return new Peer(message, bytes);
}

int decode(void *made)
{
    Peer *peer = static_cast<Peer *>(made);
    return peer->parser.parse(peer->text).error() == simdjson::SUCCESS;
}

size_t nodes(void *made)
{
    Peer *peer = static_cast<Peer *>(made);
    simdjson::dom::element root;
    return peer->parser.parse(peer->text).get(root) == simdjson::SUCCESS ? nodes_of(root) : 0;
}

void release(void *made)
{
    delete static_cast<Peer *>(made);
}

} // namespace

const peer_functions peer_simdjson = {make, decode, nodes, release};
