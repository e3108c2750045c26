//! The aims: of quinn's time in the same run, by sample.

use crate::calls::{Op, Who};

/// For small, typical and full; where records are read or written in an order, over 512 orders.
const AIMS: [(Who, Op, [f64; 3]); 7] = [
    (Who::Rattle, Op::ReadOrders, [0.85, 0.50, 0.50]),
    (Who::Rattle, Op::Write, [0.60, 0.35, 0.30]),
    (Who::Rattle, Op::WriteOrders, [0.75, 0.50, 0.40]),
    (Who::Rattle, Op::Tidy, [0.38, 0.30, 0.30]),
    (Who::Interface, Op::ReadOrders, [0.85, 0.50, 0.50]),
    (Who::Interface, Op::WriteOrders, [0.95, 0.60, 0.45]),
    (Who::Rust, Op::WriteOrders, [1.00, 0.70, 0.60]),
];

/// Of reading 64 KiB of unknown parameters.
const UNKNOWN: f64 = 0.3;

/// The aim for an operation on the sample at this place, if there is one.
pub fn aim(who: Who, op: Op, sample: usize) -> Option<f64> {
    match sample {
        0..3 => AIMS.iter().find(|(w, o, _)| (*w, *o) == (who, op)).map(|(_, _, aims)| aims[sample]),
        3 if (who, op) == (Who::Rattle, Op::Read) => Some(UNKNOWN),
        _ => None,
    }
}
