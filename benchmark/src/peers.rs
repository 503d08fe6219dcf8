//! Decoders of other formats, those of them that build.rs has found.

use crate::encodings::{cbor, json, message_pack, nodes_of};
use crate::timing::Contender;
use conformance::messages::Value;
use std::ffi::{c_int, c_void};
use std::hint::black_box;

/// A peer's functions, as c/peers/peers.h has them.
#[repr(C)]
pub struct Functions {
    make: unsafe extern "C" fn(*const u8, usize, usize) -> *mut c_void,
    decode: unsafe extern "C" fn(*mut c_void) -> c_int,
    nodes: unsafe extern "C" fn(*mut c_void) -> usize,
    release: unsafe extern "C" fn(*mut c_void),
}

extern "C" {
    #[cfg(jsmn)]
    static peer_jsmn: Functions;
    #[cfg(simdjson)]
    static peer_simdjson: Functions;
    #[cfg(cbor)]
    static peer_cbor: Functions;
    #[cfg(msgpack)]
    static peer_msgpack: Functions;
}

/// A decoder of another format; without functions where its package is missing.
pub struct Peer {
    pub name: &'static str,
    pub package: &'static str,
    encode: fn(&Value) -> Vec<u8>,
    pub functions: Option<&'static Functions>,
}

/// A peer's functions where the cfg says that they are linked.
macro_rules! functions {
    ($cfg:ident, $functions:ident) => {{
        #[cfg($cfg)]
        // SAFETY: the peer's source defines it as a constant of this type.
        let found = Some(unsafe { &$functions });
        #[cfg(not($cfg))]
        let found = None;
        found
    }};
}

pub fn peers() -> [Peer; 4] {
    [
        Peer {
            name: "JSON, jsmn",
            package: "libjsmn-dev",
            encode: json,
            functions: functions!(jsmn, peer_jsmn),
        },
        Peer {
            name: "JSON, simdjson",
            package: "libsimdjson-dev",
            encode: json,
            functions: functions!(simdjson, peer_simdjson),
        },
        Peer {
            name: "CBOR, libcbor",
            package: "libcbor-dev",
            encode: cbor,
            functions: functions!(cbor, peer_cbor),
        },
        Peer {
            name: "MessagePack, msgpack-c",
            package: "libmsgpack-dev",
            encode: message_pack,
            functions: functions!(msgpack, peer_msgpack),
        },
    ]
}

/// What a peer has made of a message, which has to stay where it is.
struct Prepared {
    functions: &'static Functions,
    made: *mut c_void,
    message: Vec<u8>,
}

impl Prepared {
    fn new(functions: &'static Functions, message: Vec<u8>, nodes: usize) -> Prepared {
        // SAFETY: pointer and count come from one vector, which lives as long as what is made of it.
        let made = unsafe { (functions.make)(message.as_ptr(), message.len(), nodes) };
        assert!(!made.is_null(), "no memory for a peer");
        Prepared {
            functions,
            made,
            message,
        }
    }

    fn decode(&mut self) -> bool {
        // SAFETY: it was made by the same peer and not released. The same holds below.
        unsafe { (self.functions.decode)(self.made) == 1 }
    }

    fn nodes(&mut self) -> usize {
        // SAFETY: as for `decode`.
        unsafe { (self.functions.nodes)(self.made) }
    }
}

impl Drop for Prepared {
    fn drop(&mut self) {
        // SAFETY: as for `decode`; nothing is called after it.
        unsafe { (self.functions.release)(self.made) }
    }
}

/// The peers on one value, once each has accepted its message and seen every node.
pub fn contenders(value: &Value) -> Vec<Contender<'static>> {
    let nodes = nodes_of(value);
    let contender = |peer: Peer| {
        let name = peer.name;
        let mut prepared = Prepared::new(peer.functions?, (peer.encode)(value), nodes);
        assert!(prepared.decode(), "{name}: refused");
        assert_eq!(prepared.nodes(), nodes, "{name}: other nodes");
        let bytes = prepared.message.len();
        Some(Contender::new(name, bytes, move || {
            black_box(prepared.decode());
        }))
    };
    peers().into_iter().filter_map(contender).collect()
}
