//! Reading one BTF: ours, the crate's, libbpf's, and the copy of the same bytes as the floor.
use crate::libbpf;
use crate::measure::{measured, Way};
use crate::ours::read_into;
use crate::table::{print_aim, print_table};
use leamugi::Btf;
use oracle::timing;
use std::hint::black_box;

const FLOOR: &str = "copy of the same bytes";
const LENT: &str = "ours, `leamugi_read`, table lent";
const HANDED: &str = "ours, `Btf::read`, bytes handed over and back, table made, dropped";
const WHOLE: &str = "ours, `Btf::read`, bytes copied, table made, both dropped";
const CRATE: &str = "the crate, `Btf::parse`, dropped";
const LIBBPF: &str = "libbpf, `btf__new`, `btf__free`";

/// Times reading and prints the table and the aims.
pub fn bench(bytes: &[u8], types: u32) {
    let mut table = vec![0; types as usize + 1];
    #[cfg(feature = "earlier")]
    let mut other = table.clone();
    let mut copy = vec![0; bytes.len()];
    let mut own = bytes.to_vec();
    let mut ways = vec![
        Way::new(FLOOR, || black_box(&mut copy[..]).copy_from_slice(black_box(bytes))),
        Way::new(LENT, || assert!(read_into(black_box(bytes), black_box(&mut table)))),
        Way::new(HANDED, || own = black_box(Btf::read(black_box(std::mem::take(&mut own))).expect("was read before")).into_bytes()),
        Way::new(WHOLE, || drop(black_box(Btf::read(black_box(bytes).to_vec()).expect("was read before")))),
        Way::new(CRATE, || drop(black_box(timing::Read::new(black_box(bytes)).expect("the crate reads what we read")))),
    ];
    #[cfg(feature = "earlier")]
    ways.push(Way::new("ours of before, `leamugi_read`, table lent", || {
        assert!(crate::ours::earlier_into(black_box(bytes), black_box(&mut other)))
    }));
    ways.extend(libbpf::reading(LIBBPF, bytes));
    let taken = measured(ways);
    print_table("reading", &taken, LENT, ("ns a type", f64::from(types)));
    print_aim(&taken, "Aim, at least 4 times as fast as the crate", (LENT, CRATE), 4.0);
    print_aim(&taken, "The same, by `Btf::read`, bytes handed over", (HANDED, CRATE), 4.0);
    print_aim(&taken, "The same, by `Btf::read` of a copy", (WHOLE, CRATE), 4.0);
    print_aim(&taken, "Aim, no slower than libbpf's parse", (LENT, LIBBPF), 1.0);
    print_aim(&taken, "The same, by `Btf::read`, bytes handed over", (HANDED, LIBBPF), 1.0);
    print_aim(&taken, "The same, by `Btf::read` of a copy", (WHOLE, LIBBPF), 1.0);
}
