//! Bytes that are damaged: cut, flipped, inserted, taken out, counts changed.
use crate::random::Rng;

pub const DAMAGES: usize = 8;

pub fn damage(rng: &mut Rng, bytes: &mut Vec<u8>, which: usize) {
    let n = bytes.len();
    if n == 0 {
        bytes.push(rng.below(256) as u8);
        return;
    }
    let at = rng.below(n);
    match which {
        0 => bytes.truncate(if rng.once_in(2) { n - 1 } else { at }),
        1 => {
            let more = if rng.once_in(16) { 70_000 } else { 1 };
            bytes.resize(n + more, rng.below(256) as u8);
        }
        2 => bytes[at] ^= 1 << rng.below(8),
        3 => bytes.insert(at, rng.below(256) as u8),
        4 => drop(bytes.remove(at)),
        5 => {
            // A byte that may be a count: one more or one fewer.
            let small: Vec<usize> = (0..n).filter(|k| bytes[*k] <= 65).collect();
            if let Some(k) = (!small.is_empty()).then(|| *rng.pick(&small)) {
                bytes[k] = if rng.once_in(2) { bytes[k].wrapping_add(1) } else { bytes[k].wrapping_sub(1) };
            }
        }
        6 => bytes[at] = *rng.pick(&[0, 1, 2, 4, 8, 9, 16, 17, 64, 65, 255, b'A', b'B', b'D', b'E', b'I', b'J']),
        _ => {
            let end = rng.between(at, n);
            let part = bytes[at..end].to_vec();
            bytes.splice(at..at, part);
        }
    }
}
