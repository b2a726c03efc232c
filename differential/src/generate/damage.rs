//! Damaged bytes: flipped, cut, inserted, appended.

use super::rng::Rng;
use crate::side::{Call, CallKind};

/// Bytes that mean something in streams and tables, so that damage often leads somewhere.
const TELLING: [u8; 18] = [
    0x00, 0x01, 0x02, 0x03, 0x04, 0x05, 0x08, 0x09, 0x0a, 0x0b, 0x0c, 0x20, 0x21, 0x22, 0x23, 0x24,
    0x25, 0xff,
];

/// Damages one of the inputs of a call, once or twice.
pub fn damage(rng: &mut Rng, call: &mut Call) {
    for _ in 0..=rng.below(2) {
        let has_table = call.kind != CallKind::Receiver;
        let has_second = call.kind.takes_second();
        let part = match rng.below(4) {
            0 if has_table => &mut call.table,
            1 if has_second => &mut call.second,
            _ => &mut call.first,
        };
        damage_bytes(rng, part);
    }
}

fn damage_bytes(rng: &mut Rng, bytes: &mut Vec<u8>) {
    let at = rng.below(bytes.len() + 1);
    let new = if rng.one_in(3) { rng.draw() as u8 } else { rng.pick(&TELLING) };
    match rng.below(6) {
        0 => bytes.truncate(at),
        1 => bytes.insert(at, new),
        2 => bytes.push(new),
        3 if at < bytes.len() => {
            bytes.remove(at);
        }
        4 if at < bytes.len() => bytes[at] ^= 1 << rng.below(8),
        _ if at < bytes.len() => bytes[at] = new,
        _ => bytes.push(new),
    }
}
