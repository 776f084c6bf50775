//! The fixed lists: section 8, the hand-made cases, and made ones chosen by what they meet.

use std::{
    cmp::Reverse,
    collections::{BTreeSet, BinaryHeap, HashMap},
};

use under_test::probe::Reply;

use crate::{
    case::Case,
    differences, hand, list,
    list::Entry,
    made, reading,
    run::{self, Applied, Run, number},
    section8,
};

/// The seed of the made cases, and how many are looked at.
pub const SEED: u64 = 2026;
pub const LOOKED_AT: u64 = 120_000;
/// So many made cases are taken at most, for the crate's list and for document 01's.
const TAKEN: [usize; 2] = [1_500, 300];
/// Each thing met is wanted so many times.
const WANTED: u32 = 1;
/// Made cases above this size are left out.
const MADE_SIZE: usize = 2_600;

/// The two lists: the crate's answers, and document 01's where the crate has none.
#[derive(Default)]
pub struct Lists {
    pub by_crate: Vec<Entry>,
    pub by_document: Vec<Entry>,
    pub faults: Vec<String>,
}

pub fn make() -> Lists {
    let mut lists = Lists::default();
    for (told, n) in section8::cases().into_iter().zip(0..) {
        let block = told.block();
        lists.told(list::SECTION8 + n, told.name, told.case, &block);
    }
    for ((name, case), n) in hand::cases().into_iter().zip(0..) {
        lists.hand(list::HAND + n, &name, case);
    }
    for (told, n) in reading::cases().into_iter().zip(0..) {
        let run = run::run(&told.case, true);
        if run.outcome != told.outcome {
            lists.faults.push(format!("{}: {} is told, {} comes", told.name, told.outcome, run.outcome));
        }
        lists.hand(list::READING + n, &told.name, told.case);
    }
    for (row, n) in differences::rows().into_iter().zip(0..) {
        let run = run::run(&row.case, true);
        if differences::summary(&run) != row.told {
            lists.faults.push(format!("{}: something else comes than is told", row.name));
        }
        if run.is_inside() || run.is_by_document() {
            lists.put(list::DIFFERENCE + n, row.case, &run);
        }
    }
    lists.made();
    lists
}

impl Lists {
    /// A case whose block the document tells: it must be the crate's too.
    fn told(&mut self, origin: u32, name: &str, case: Case, block: &str) {
        let run = run::run(&case, true);
        if !run.is_inside() || run.plain() != block {
            self.faults.push(format!("{name}: section 8 and the crate differ"));
        }
        self.put(origin, case, &run);
    }

    fn hand(&mut self, origin: u32, name: &str, case: Case) {
        let run = run::run(&case, true);
        if !run.is_inside() && !run.is_by_document() {
            self.faults.push(format!("{name}: nobody gives its answer"));
            return;
        }
        self.put(origin, case, &run);
    }

    fn put(&mut self, origin: u32, case: Case, run: &Run) {
        self.faults.extend(run.faults.iter().cloned());
        let entry = Entry { origin, case, block: run.plain() };
        if !entry.fits() {
            self.faults.push(format!("{origin:#x} is too long for the list"));
        }
        if run.is_inside() { self.by_crate.push(entry) } else { self.by_document.push(entry) }
    }

    /// Takes the made cases that meet most of what is still wanted, one after the other.
    fn made(&mut self) {
        let looked_at = look();
        for (which, most) in TAKEN.iter().enumerate() {
            let seen: Vec<&Seen> = looked_at.iter().filter(|s| s.which == which).collect();
            for index in choose(&seen, *most) {
                let case = made::case(SEED, index);
                let run = run::run(&case, true);
                self.put(list::MADE + index as u32, case, &run);
            }
        }
    }
}

/// The indices of the chosen cases, in order. What a case still adds only falls, so an old count is looked at again
/// when it comes first.
fn choose(seen: &[&Seen], most: usize) -> BTreeSet<u64> {
    let mut met: HashMap<u64, u32> = HashMap::new();
    let mut chosen = BTreeSet::new();
    let mut queue: BinaryHeap<(usize, Reverse<usize>)> = (0..seen.len()).map(|at| (seen[at].meets.len(), Reverse(at))).collect();
    while let Some((count, Reverse(at))) = queue.pop() {
        let adds = seen[at].meets.iter().filter(|m| met.get(m).is_none_or(|&n| n < WANTED)).count();
        if adds == 0 || chosen.len() == most {
            continue;
        }
        if adds < count {
            queue.push((adds, Reverse(at)));
            continue;
        }
        chosen.insert(seen[at].index);
        seen[at].meets.iter().for_each(|&m| *met.entry(m).or_default() += 1);
    }
    chosen
}

/// A made case that may be taken: for which list, and what it meets.
struct Seen {
    index: u64,
    which: usize,
    meets: Vec<u64>,
}

fn look() -> Vec<Seen> {
    let mut looked_at = Vec::new();
    for index in 0..LOOKED_AT {
        let case = made::case(SEED, index);
        let run = run::run(&case, false);
        if case.size() <= MADE_SIZE && (run.is_inside() || run.is_by_document()) {
            let meets = meets(&case, &run).iter().map(|m| hash(m)).collect::<BTreeSet<u64>>().into_iter().collect();
            looked_at.push(Seen { index, which: usize::from(!run.is_inside()), meets });
        }
    }
    looked_at
}

/// FNV-1a: the same on every machine.
fn hash(text: &str) -> u64 {
    text.bytes().fold(0xcbf2_9ce4_8422_2325, |h, b| (h ^ u64::from(b)).wrapping_mul(0x0100_0000_01b3))
}

/// A reply without its values.
fn sort(reply: &Reply) -> u32 {
    match reply {
        Reply::Value(_) => 100,
        Reply::Poison => 101,
        Reply::Instruction(reason) => 200 + u32::from(*reason),
        reply => number(reply).unwrap_or(99),
    }
}

/// What a case meets, as things to be counted.
fn meets(case: &Case, run: &Run) -> Vec<String> {
    let mut meets: Vec<String> = run.turns.iter().flat_map(one).collect();
    let outcome = run.outcome.split(' ').next().unwrap_or_default();
    meets.push(format!("list {outcome} {} {}", run.turns.len(), case.section > 0));
    meets.extend(run.outside.iter().map(|o| format!("outside {}", where_from(&o.line))));
    meets.extend(case.records.chunks_exact(16).map(|r| format!("unaligned {}", r[0] % 8)).take(1));
    meets
}

/// A mark without the numbers of its case.
fn where_from(line: &str) -> String {
    line.chars().filter(|c| !c.is_ascii_digit() || line.contains(".rs:")).take(60).collect()
}

fn one(turn: &Applied) -> Vec<String> {
    let (kind, n, sort) = (turn.kind, &turn.notes, sort(&turn.reply));
    let width = |v: u64| 64 - v.leading_zeros();
    let value = match turn.reply {
        Reply::Value(v) => width(v),
        _ => 99,
    };
    let class = turn.code & 7;
    let sized = if (1..=3).contains(&class) { turn.code } else { class };
    vec![
        format!("type {kind} {sort} {}", n.resolved_kind),
        format!("own {sort} {}", n.type_kind),
        format!("last {kind} {sort} {} {:?}", n.last_kinds.0, n.bitfields),
        format!("pair {sort} {:?}", n.last_kinds),
        format!("matches {kind} {sort} {} {} {}", n.matches.min(3), n.valueless.min(2), n.candidates.min(3)),
        format!("walk {kind} {sort} {} {} {}", n.accessors.min(5), n.last_named, n.unnamed.min(2)),
        format!("code {sort} {sized:x}"),
        format!("class {kind} {sort} {class}"),
        format!("sizes {sort} {} {} {}", n.sizes.0.min(17), n.sizes.1.min(17), (1..=3).contains(&class)),
        format!("value {kind} {value}"),
        format!("bits {kind} {sort} {}", n.target_bits % 8),
        format!("first {kind} {sort} {}", n.first_index.min(2)),
        format!("slot {sort} {:?}", turn.insn.map(|i| i.min(3))),
    ]
}
