//! One case through the crate: what design/CASES.md prints, and marks where a case is outside the domain.

use std::fmt::Write;

use under_test::probe::{Mark, Notes, Reply, Session, Turn, Why};

use crate::{
    case::Case,
    section4::{self, Accepted, Fault},
};

const MAX_INSNS: usize = 4_096;

/// Who gave the answer that a block shows.
#[derive(Clone, Copy, Debug, PartialEq, Eq)]
pub enum By {
    Crate,
    Document,
    /// nobody: the block stops before that record
    Nobody,
}

/// A reason to call a case outside the domain.
#[derive(Clone, Debug)]
pub struct Outside {
    pub by: By,
    pub line: String,
}

#[derive(Clone, Debug)]
pub struct Applied {
    pub kind: u32,
    pub reply: Reply,
    pub insn: Option<usize>,
    pub notes: Notes,
    pub code: u8,
}

/// Everything that one case comes to.
#[derive(Clone, Debug, Default)]
pub struct Run {
    pub turns: Vec<Applied>,
    pub outside: Vec<Outside>,
    pub outcome: String,
    pub insns: Vec<u8>,
    /// self-checks that failed
    pub faults: Vec<String>,
}

/// Section 3's number of a reply.
pub fn number(reply: &Reply) -> Option<u32> {
    Some(match reply {
        Reply::Value(_) | Reply::Poison => 0,
        Reply::Kind(_) => 4,
        Reply::NotInFunction => 5,
        Reply::Successor(_) => 6,
        Reply::Access => 7,
        Reply::Index { .. } => 8,
        Reply::KindForType => 9,
        Reply::Conflict { .. } => 10,
        Reply::Nesting { .. } => 11,
        Reply::Instruction(_) => 12,
        Reply::NoMatch => 13,
        Reply::Unresolved => 14,
        Reply::Parts => 15,
        Reply::Bits => 16,
        Reply::Steps => 17,
        Reply::Open => return None,
    })
}

pub fn is_applied(reply: &Reply) -> bool {
    matches!(reply, Reply::Value(_) | Reply::Poison)
}

/// The outcome's line for a record that was refused.
fn outcome(reply: &Reply, record: usize) -> String {
    let Some(number) = number(reply) else {
        return format!("outcome=outside applied={record}");
    };
    let returned = match reply {
        Reply::Kind(kind) => format!("kind={kind}"),
        Reply::Successor(index) => format!("index={index}"),
        Reply::Index { index, count } => format!("index={index} count={count}"),
        Reply::Conflict { id, count } => format!("id={id} count={count}"),
        Reply::Nesting { id } => format!("id={id}"),
        Reply::Instruction(reason) => format!("reason={reason}"),
        _ => format!("record={record}"),
    };
    format!("outcome={number} {returned} applied={record}")
}

fn why(why: Why) -> &'static str {
    match why {
        Why::Panic => "panic",
        Why::Parts => "parts",
        Why::Bits => "bits",
        Why::Nesting => "nesting",
        Why::SizeChange => "size-change",
        Why::Work => "work",
    }
}

impl Run {
    fn mark(&mut self, by: By, text: String) {
        let by_name = match by {
            By::Crate => "crate",
            By::Document => "document-01",
            By::Nobody => "nobody",
        };
        self.outside.push(Outside { by, line: format!("outside={text} by={by_name}") });
    }

    fn mark_record(&mut self, record: usize, reply: &Reply, mark: &Mark) {
        let by = if number(reply).is_some() { By::Document } else { By::Nobody };
        let text = format!("{} record={record} why=\"{}\"", why(mark.why), mark.text);
        self.mark(by, text);
    }

    /// Whether the whole block is the crate's, inside the domain.
    pub fn is_inside(&self) -> bool {
        self.outside.is_empty()
    }

    /// Whether document 01 gives every number of the block, though not all are the crate's.
    pub fn is_by_document(&self) -> bool {
        !self.is_inside() && self.outside.iter().all(|o| o.by == By::Document)
    }

    /// The block without its first line, marks left out.
    pub fn plain(&self) -> String {
        let mut out = String::new();
        for (i, turn) in self.turns.iter().enumerate() {
            let Some(number) = number(&turn.reply) else {
                break;
            };
            let insn = turn.insn.map_or("none".to_string(), |i| i.to_string());
            let value = match turn.reply {
                Reply::Value(value) => value.to_string(),
                Reply::Poison => "poison".to_string(),
                _ => "none".to_string(),
            };
            let _ = write!(out, "record={i}\nanswer={number}\ninsn={insn}\nvalue={value}\n");
        }
        let _ = write!(out, "{}\ninsns=", self.outcome);
        self.insns.iter().for_each(|b| {
            let _ = write!(out, "{b:02x}");
        });
        out += "\nend\n";
        out
    }

    /// The whole block, marks after the first line.
    pub fn block(&self, path: &str) -> String {
        let marks: String = self.outside.iter().map(|o| o.line.clone() + "\n").collect();
        format!("case={path}\n{marks}{}", self.plain())
    }

    /// One outcome before any record.
    fn before_records(mut self, outcome: String) -> Self {
        self.outcome = outcome;
        self
    }
}

/// Refusal 18's shape.
fn is_shaped(case: &Case) -> bool {
    case.insns.len().is_multiple_of(8)
        && case.section.is_multiple_of(8)
        && case.records.len().is_multiple_of(16)
        && case.insns.len() / 8 <= MAX_INSNS
}

/// A copy that the crate can hold: a VAR's linkage above 3 becomes 0, which no answer looks at.
fn held(bytes: &[u8], accepted: &Accepted) -> Vec<u8> {
    let mut copy = bytes.to_vec();
    accepted.linkages.iter().for_each(|&at| copy[at..at + 4].fill(0));
    copy
}

/// Runs a case; `checked` asks for the self-checks too.
pub fn run(case: &Case, checked: bool) -> Run {
    let mut run = Run { insns: case.insns.clone(), ..Run::default() };
    if !is_shaped(case) {
        run.mark(By::Document, "shape".to_string());
        return run.before_records("outcome=18 applied=0".to_string());
    }
    let mut copies = Vec::new();
    for (name, bytes) in [("local", &case.local), ("target", &case.target)] {
        match section4::read(bytes) {
            Ok(accepted) => {
                if !accepted.utf8 {
                    run.mark(By::Crate, format!("names btf={name}"));
                }
                if !accepted.linkages.is_empty() {
                    run.mark(By::Crate, format!("linkage btf={name}"));
                }
                copies.push(held(bytes, &accepted));
            }
            Err(fault) => {
                run.outside.clear();
                run.mark(By::Document, format!("btf-{name} section=4"));
                let said = match fault {
                    Fault::Bad(id) => format!("outcome=1 btf={name} id={id} applied=0"),
                    Fault::Limit => format!("outcome=2 btf={name} applied=0"),
                };
                return run.before_records(said);
            }
        }
    }
    records(case, &copies, run, checked)
}

fn records(case: &Case, copies: &[Vec<u8>], mut run: Run, checked: bool) -> Run {
    let mut session = match Session::new(&copies[0], &copies[1], &case.insns, case.section) {
        Ok(session) => session,
        Err(e) => {
            run.faults.push(format!("section 4 accepts what the crate refuses: {e}"));
            return run.before_records("outcome=outside applied=0".to_string());
        }
    };
    let count = case.records.len() / 16;
    run.outcome = format!("outcome=0 applied={count}");
    for (i, record) in case.records.chunks(16).enumerate() {
        let before = session.function.clone();
        let Turn { reply, insn, marks, notes, doubts } = session.record(record, i);
        run.faults.extend(doubts);
        marks.iter().for_each(|mark| run.mark_record(i, &reply, mark));
        if checked && marks.is_empty() {
            run.faults.extend(crate::checks::one(&session, &before, record, &reply, i));
        }
        let code = insn.map_or(0, |at| before.instructions[at].code);
        let kind = crate::case::word(record, 12);
        let refused = !is_applied(&reply);
        run.turns.push(Applied { kind, reply: reply.clone(), insn, notes, code });
        if refused {
            run.outcome = outcome(&reply, i);
            break;
        }
    }
    run.insns = session.function.bytes();
    if checked && run.outside.is_empty() {
        run.faults.extend(crate::checks::list(case, &session, &run));
    }
    run
}
