//! Made cases against a real kernel's BTF: the program's types are cut from a kernel's own.

mod cut;
mod fits;
mod source;

use super::{damage, rng::Rng, types::emit};
use crate::case::Case;
use cut::Cut;
pub use source::Kernel;

/// Case number `index` of a seed: types of `from`, which the program was compiled against, relocated against `target`.
pub fn case(from: &Kernel, target: &[u8], seed: u64, index: u64) -> Case {
    let mut rng = Rng::new(seed, index);
    let mut cut = Cut::new(from);
    let roots: Vec<u32> = (0..1 + rng.below(3))
        .map(|_| {
            let id = from.pick(&mut rng);
            cut.root(&mut rng, id)
        })
        .collect();
    cut.program();
    let wanted: Vec<_> = (0..6 + rng.below(12)).map(|_| fits::wanted(&mut rng, &cut, &roots)).collect();
    let mut local = emit(&mut rng, &cut.types);
    let mut case = fits::function(&mut rng, &mut local, &wanted);
    case.local = local.bytes();
    case.target = target.to_vec();
    if rng.chance(2) {
        damage(&mut rng, &mut case);
    }
    case
}
