//! Made cases: case `i` of a seed depends on the seed and on `i` alone.

pub mod bytes;
pub mod kernel;
mod records;
pub mod rng;
mod soup;
mod themes;
mod types;
mod world;

use crate::case::Case;
use rng::Rng;

/// Case number `index` of a seed.
pub fn case(seed: u64, index: u64) -> Case {
    let mut rng = Rng::new(seed, index);
    let mut case = themes::any(&mut rng);
    if rng.chance(5) {
        damage(&mut rng, &mut case);
    }
    case
}

/// A few bytes of one part changed, a part cut short or drawn out, or a section offset out of step.
fn damage(rng: &mut Rng, case: &mut Case) {
    let part = match rng.below(10) {
        0..=3 => &mut case.local,
        4..=7 => &mut case.target,
        8 => &mut case.insns,
        _ => &mut case.records,
    };
    match rng.below(12) {
        0 => part.truncate(rng.below(part.len() + 1)),
        1 => part.push(rng.draw() as u8),
        2 => case.section += 1 + rng.below(15) as u64,
        3 if part.len() >= 24 => {
            let word = 4 * rng.below(6);
            let odd = rng.pick(&[0u32, 1, 23, 24, 25, 28, 0x7fff_ffff, 0xffff_ffff]);
            part[word..word + 4].copy_from_slice(&odd.to_le_bytes());
        }
        _ => {
            for _ in 0..=rng.below(3) {
                if part.is_empty() {
                    break;
                }
                let at = rng.below(part.len());
                part[at] = if rng.chance(50) { part[at] ^ 1 << rng.below(8) } else { rng.draw() as u8 };
            }
        }
    }
}
