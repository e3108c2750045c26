//! Records of the Rust crate (bindings/rust).

use crate::{image::VERSIONS, samples::Image};
use yuthpram::{ReservedTransportParameter, Side, TransportParameters, VarInt};

fn number(image: &Image, at: usize) -> VarInt {
    let bytes = image[at..at + 8].try_into().expect("eight bytes");
    VarInt::from_u64(u64::from_be_bytes(bytes)).expect("below 2^62")
}

fn reserved(image: &Image) -> ReservedTransportParameter {
    let payload = &image[265..265 + image[264] as usize];
    ReservedTransportParameter::new(number(image, 256), payload).expect("a reserved parameter")
}

/// The record of an image: what is read in the sample's bytes, and what a sample's image has besides, which are the three delays, a reserved
/// parameter and an order.
pub fn of(bytes: &[u8], image: &Image) -> TransportParameters {
    let mut p = TransportParameters::read(Side::Client, bytes).expect("the crate reads it");
    p.ack_delay_exponent = number(image, 64);
    p.max_ack_delay = number(image, 72);
    p.min_ack_delay = (image[99] == 1).then(|| number(image, 100));
    p.grease_transport_parameter = (image[255] == 1).then(|| reserved(image));
    p.write_order = (image[281] == 1).then(|| image[282..VERSIONS].try_into().expect("22 places"));
    p
}
