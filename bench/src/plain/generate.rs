//! Random tables from a seed.

use super::quotient::write_keys;
use super::table::limits_fit;
use basilvault_tests::reference::{Limits, Load};

/// The draws that are left, and how often a record is present.
struct Draws {
    s: u32,
    density: u32,
}

impl Draws {
    /// Whether the next possible record is present.
    fn next(&mut self) -> bool {
        self.s = self.s.wrapping_mul(1_664_525).wrapping_add(1_013_904_223);
        self.s / 65_536 < self.density
    }

    /// The keys of the records of a width that are present; or 36.
    fn keys<'a>(&mut self, room: &'a mut [u32], width: usize, states: usize, from: usize, symbols: usize) -> Result<&'a [u32], u8> {
        let tails = if width == 3 { states } else { states * states };
        let mut count = 0;
        for at in 0..states * symbols * tails {
            if self.next() {
                let (state, rest) = (at / (symbols * tails), at % (symbols * tails));
                let (both, tail) = (state * 256 + from + rest / tails, rest % tails);
                let key = if width == 3 { both * 256 + tail } else { (both * 256 + tail / states) * 256 + tail % states };
                *room.get_mut(count).ok_or(36)? = key as u32;
                count += 1;
            }
        }
        Ok(&room[..count])
    }
}

/// Its length; the file.
pub fn generate(l: Limits, load: Load, out: &mut [u8]) -> Result<[u64; 1], u8> {
    if !limits_fit(l) {
        return Err(39);
    }
    let Load { seed, states, internals, calls, returns, density } = load;
    let all = internals.checked_add(calls).and_then(|k| k.checked_add(returns)).filter(|&k| k <= l.symbols).ok_or(35)?;
    if states == 0 || states > l.states || density > 65_536 {
        return Err(35);
    }
    let mut draws = Draws { s: seed, density };
    let mut room = ([0; 1024], [0; 1024], [0; 4096]);
    let internal_keys = draws.keys(&mut room.0, 3, states, 0, internals)?;
    let call_keys = draws.keys(&mut room.1, 3, states, internals, calls)?;
    let return_keys = draws.keys(&mut room.2, 4, states, internals + calls, returns)?;
    let mut symbol_bytes = [2; 64];
    symbol_bytes[..internals + calls].fill(1);
    symbol_bytes[..internals].fill(0);
    let mut state_bytes = [0; 40];
    state_bytes[0] = 1;
    state_bytes[states - 1] += 2;
    let length = write_keys(1, &symbol_bytes[..all], &state_bytes[..states], internal_keys, call_keys, return_keys, out)?;
    Ok([length as u64])
}
