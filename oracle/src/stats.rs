//! The histogram of answers.

use std::collections::BTreeMap;

use under_test::probe::Reply;

use crate::{Case, run, run::number};

/// Over so many made cases each answer that the crate has comes so often.
pub const DEMAND: (u64, u64) = (20_000, 50);

/// Answers by record kind, and outcomes.
#[derive(Default)]
pub struct Histogram {
    pub cases: u64,
    pub records: u64,
    rows: BTreeMap<String, u64>,
    pub faults: Vec<String>,
}

impl Histogram {
    fn count(&mut self, row: String) {
        *self.rows.entry(row).or_default() += 1;
    }

    /// How often each answer came, the crate's own and document 01's apart.
    pub fn add(&mut self, run: &run::Run) {
        self.cases += 1;
        self.faults.extend(run.faults.iter().cloned());
        let by = if run.is_inside() { "" } else { "outside: " };
        if run.turns.is_empty() {
            let first = run.outcome.split(' ').next().unwrap_or_default();
            self.count(format!("{by}no record, {first}"));
        }
        for (i, turn) in run.turns.iter().enumerate() {
            self.records += 1;
            let marked = run.outside.iter().any(|o| o.line.contains(&format!(" record={i} ")));
            let by = if marked { "outside: " } else { "" };
            let row = match &turn.reply {
                Reply::Value(_) => format!("{by}answer 0 value, kind {:2}", turn.kind),
                Reply::Poison => format!("{by}answer 0 poison, kind {:2}", turn.kind),
                Reply::Instruction(reason) => format!("{by}answer 12 reason {reason}"),
                reply => number(reply).map_or(format!("{by}no answer"), |n| format!("{by}answer {n:2}")),
            };
            self.count(row);
        }
    }

    /// The rows that came too seldom.
    pub fn short(&self) -> Vec<String> {
        let values = (0..12).map(|kind| format!("answer 0 value, kind {kind:2}"));
        let poisons = [0, 1, 3, 4, 5, 11].map(|kind| format!("answer 0 poison, kind {kind:2}"));
        let answers = (4..=14).filter(|&n| n != 12).map(|n| format!("answer {n:2}"));
        let reasons = (1..=5).map(|reason| format!("answer 12 reason {reason}"));
        let wanted = values.chain(poisons).chain(answers).chain(reasons);
        wanted.filter(|row| self.rows.get(row).is_none_or(|&n| n < DEMAND.1)).collect()
    }

    pub fn print(&self) -> String {
        let rows: String = self.rows.iter().map(|(row, n)| format!("{n:9} {row}\n")).collect();
        format!("{:9} cases\n{:9} records\n{rows}{:9} self-checks failed\n", self.cases, self.records, self.faults.len())
    }
}

/// Over cases, with self-checks.
pub fn over(cases: impl Iterator<Item = Case>) -> Histogram {
    let mut histogram = Histogram::default();
    cases.for_each(|case| histogram.add(&run::run(&case, true)));
    histogram
}
