// What quinn's files expect at the crate root; included by the programs that run them (this one and ../bench).

// quinn's transport_parameters.rs, varint.rs, coding.rs and shared.rs as they are; its constants, `Side`, `ResetToken` and `handle_peer_params`
include!(concat!(env!("OUT_DIR"), "/quinn.rs"));

use std::time::Duration;
pub(crate) use {std::time::Instant, varint::VarInt};

// What those files name of others that cannot be had: only the shape, nothing that is compared but
// `CidQueue::LEN` (docs/SCOPE.md, Building).

#[allow(dead_code, non_camel_case_types)]
#[derive(Debug)]
pub enum TransportError {
    PROTOCOL_VIOLATION(&'static str),
    TRANSPORT_PARAMETER_ERROR(&'static str),
}

/// What `handle_peer_params` compares, and what it hands accepted parameters on to.
#[allow(dead_code)]
pub struct Connection {
    pub side: Side,
    pub orig_rem_cid: shared::ConnectionId,
    pub initial_dst_cid: shared::ConnectionId,
    pub retry_src_cid: Option<shared::ConnectionId>,
}

#[allow(dead_code)]
impl Connection {
    fn set_peer_params(&mut self, _params: TransportParameters) {}

    pub fn authenticate(&mut self, params: TransportParameters) -> Result<(), TransportError> {
        self.handle_peer_params(params)
    }
}

use transport_parameters::TransportParameters;

mod cid_generator {
    pub trait ConnectionIdGenerator {
        fn cid_len(&self) -> usize;
    }
}

mod cid_queue {
    pub struct CidQueue;
    impl CidQueue {
        pub const LEN: usize = 5;
    }
}

mod config {
    use crate::VarInt;
    pub struct EndpointConfig {
        pub max_udp_payload_size: VarInt,
        pub grease_quic_bit: bool,
    }
    pub struct ServerConfig {
        pub migration: bool,
    }
    pub struct TransportConfig {
        pub max_concurrent_bidi_streams: VarInt,
        pub max_concurrent_uni_streams: VarInt,
        pub max_idle_timeout: Option<VarInt>,
        pub stream_receive_window: VarInt,
        pub receive_window: VarInt,
        pub datagram_receive_buffer_size: Option<usize>,
    }
}

mod constant_time {
    pub fn eq(a: &[u8], b: &[u8]) -> bool {
        a == b
    }
}

mod packet {
    #[derive(Debug)]
    pub struct PartialDecode;
}
