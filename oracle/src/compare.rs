//! Two texts of blocks, case by case: the oracle's first, with its marks, then another's.

use std::collections::{BTreeMap, HashMap};

/// How the cases of one sort compare.
#[derive(Default)]
struct Tally {
    equal: u64,
    differ: Vec<String>,
}

#[derive(Default)]
pub struct Told {
    sorts: BTreeMap<&'static str, Tally>,
    missing: u64,
}

/// A block's name and lines, the marks apart.
struct Block<'t> {
    name: &'t str,
    marks: Vec<&'t str>,
    lines: Vec<&'t str>,
}

fn blocks(text: &str) -> Vec<Block<'_>> {
    let mut blocks = Vec::new();
    for line in text.lines() {
        if let Some(name) = line.strip_prefix("case=") {
            blocks.push(Block { name, marks: Vec::new(), lines: Vec::new() });
        } else if let Some(block) = blocks.last_mut() {
            let to = if line.starts_with("outside=") { &mut block.marks } else { &mut block.lines };
            to.push(line);
        }
    }
    blocks
}

/// Inside the domain, or by whom the answer is given.
fn sort(block: &Block) -> &'static str {
    let by = |who: &str| block.marks.iter().any(|m| m.ends_with(who));
    match () {
        () if block.marks.is_empty() => "inside the domain",
        () if by("by=nobody") => "outside, open from one record on",
        () if by("by=crate") => "outside, the crate's answer",
        () => "outside, document 01's answer",
    }
}

/// Whether the other's block says the same; an open one only has to begin the same.
fn same(block: &Block, other: &Block) -> bool {
    if sort(block) != "outside, open from one record on" {
        return block.lines == other.lines;
    }
    let told = block.lines.iter().take_while(|l| !l.starts_with("outcome="));
    told.zip(&other.lines).all(|(a, b)| a == b)
}

/// Compares by the names of the cases.
pub fn compare(ours: &str, others: &str) -> Told {
    let others = blocks(others);
    let by_name: HashMap<&str, &Block> = others.iter().map(|b| (b.name, b)).collect();
    let mut told = Told::default();
    for block in blocks(ours) {
        let Some(other) = by_name.get(block.name) else {
            told.missing += 1;
            continue;
        };
        let tally = told.sorts.entry(sort(&block)).or_default();
        if same(&block, other) {
            tally.equal += 1;
        } else {
            tally.differ.push(block.name.to_string());
        }
    }
    told
}

impl Told {
    /// Cases that differ though an answer is given.
    pub fn differ(&self) -> u64 {
        let differ = self.sorts.values().map(|t| t.differ.len() as u64).sum::<u64>();
        differ + self.missing
    }

    pub fn print(&self) -> String {
        let row = |(sort, tally): (&&str, &Tally)| {
            let first = tally.differ.iter().take(10).cloned().collect::<Vec<_>>().join(" ");
            format!("{:9} equal {:6} differ  {sort}  {first}\n", tally.equal, tally.differ.len())
        };
        self.sorts.iter().map(row).collect::<String>() + &format!("{:9} missing\n", self.missing)
    }
}
