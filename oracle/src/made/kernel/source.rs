//! A kernel's BTF as a type list, and which of its types a program asks for.

use std::collections::HashMap;

use crate::{
    case::word,
    made::{rng::Rng, types::*},
    section4::{self, Place},
};

/// What programs read most.
const KNOWN: [&str; 22] = [
    "task_struct",
    "sock",
    "sock_common",
    "tcp_sock",
    "inet_sock",
    "sk_buff",
    "file",
    "path",
    "inode",
    "dentry",
    "super_block",
    "net_device",
    "request",
    "request_queue",
    "bio",
    "mm_struct",
    "vm_area_struct",
    "page",
    "cred",
    "nsproxy",
    "cgroup",
    "linux_binprm",
];

/// The first offset that no load or store can hold.
const OFFSET_END: u32 = 32_768;

/// Ids by what makes them worth asking for.
#[derive(Default)]
struct Pools {
    known: Vec<u32>,
    structs: Vec<u32>,
    unions: Vec<u32>,
    enums: Vec<u32>,
    wide_enums: Vec<u32>,
    typedefs: Vec<u32>,
    /// of one kind and name with another
    twins: Vec<u32>,
    /// longer than an offset reaches
    long: Vec<u32>,
}

pub struct Kernel {
    pub types: Types,
    pools: Pools,
}

impl Kernel {
    /// Nothing where section 4 refuses the bytes, or no type is worth asking for.
    pub fn read(bytes: &[u8]) -> Option<Self> {
        let (places, strings) = section4::places(bytes)?;
        let types: Types = places.iter().map(|place| decoded(bytes, place, strings)).collect();
        let pools = pools(&types);
        (!pools.all().concat().is_empty()).then_some(Self { types, pools })
    }

    /// A named type: the well-known ones come often.
    pub fn pick(&self, rng: &mut Rng) -> u32 {
        let pools = self.pools.all();
        let weights: Vec<usize> = pools.iter().zip([34, 26, 7, 8, 4, 12, 6, 3]).map(|(p, w)| if p.is_empty() { 0 } else { w }).collect();
        let pool = rng.weighed(&weights);
        rng.pick(pools[pool])
    }
}

impl Pools {
    fn all(&self) -> [&[u32]; 8] {
        [&self.known, &self.structs, &self.unions, &self.enums, &self.wide_enums, &self.typedefs, &self.twins, &self.long]
    }
}

fn pools(types: &Types) -> Pools {
    let mut pools = Pools::default();
    let mut twins: HashMap<(u32, &str), u32> = HashMap::new();
    types.iter().for_each(|ty| *twins.entry((ty.kind, &ty.name)).or_default() += 1);
    for (ty, id) in types.iter().zip(1..) {
        let pool = match ty.kind {
            _ if ty.name.is_empty() => continue,
            STRUCT => &mut pools.structs,
            UNION => &mut pools.unions,
            ENUM => &mut pools.enums,
            ENUM64 => &mut pools.wide_enums,
            TYPEDEF => &mut pools.typedefs,
            _ => continue,
        };
        pool.push(id);
        if KNOWN.contains(&ty.name.as_str()) {
            pools.known.push(id);
        }
        if twins[&(ty.kind, ty.name.as_str())] > 1 {
            pools.twins.push(id);
        }
        if ty.is_group() && ty.third > OFFSET_END {
            pools.long.push(id);
        }
    }
    pools
}

/// A type at its place in bytes that section 4 accepts.
fn decoded(bytes: &[u8], place: &Place, strings: &[u8]) -> Type {
    let words = |at: usize, n: usize| (0..n).map(|i| word(bytes, place.at + at + 4 * i)).collect::<Vec<u32>>();
    let name = |offset: u32| {
        let name = strings[offset as usize..].split(|&b| b == 0).next().unwrap_or_default();
        String::from_utf8_lossy(name).into_owned()
    };
    let (extra, width) = match place.kind {
        INT | VAR | DECL_TAG => (1, 0),
        ARRAY => (3, 0),
        ENUM | PROTO => (0, 2),
        STRUCT | UNION | DATASEC | ENUM64 => (0, 3),
        _ => (0, 0),
    };
    let entry = |i: usize| {
        let words = words(12 + 4 * i * width, width);
        match place.kind {
            DATASEC => Entry { name: String::new(), words },
            _ => Entry { name: name(words[0]), words: words[1..].to_vec() },
        }
    };
    let head = words(0, 3);
    let count = if width == 0 { 0 } else { place.count };
    Type {
        kind: place.kind,
        name: name(head[0]),
        flag: head[1] >> 31 == 1,
        third: head[2],
        extra: words(12, extra),
        entries: (0..count).map(entry).collect(),
    }
}
