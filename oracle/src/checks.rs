//! Self-checks: the record-by-record walk is the crate's own whole call.

use under_test::{
    Function,
    probe::{Prepared, Read, Reply, Session},
};

use crate::{
    case::Case,
    run::{Run, is_applied},
};

/// Whether the crate's whole call said the same, ids left out: its errors do not tell them.
fn agree(whole: &Result<(), Reply>, reply: &Reply) -> bool {
    match (whole, reply) {
        (Ok(()), reply) => is_applied(reply),
        (Err(Reply::Conflict { count: a, .. }), Reply::Conflict { count: b, .. }) => a == b,
        (Err(Reply::Nesting { .. }), Reply::Nesting { .. }) => true,
        (Err(Reply::Successor(_)), Reply::Successor(_)) => true,
        (Err(whole), reply) => whole == reply,
    }
}

/// Whether a refusal may leave other bytes than it found.
fn may_write(reply: &Reply) -> bool {
    is_applied(reply) || matches!(reply, Reply::Successor(_) | Reply::Instruction(3 | 4 | 6))
}

/// One record: the whole call on a list of it alone says the same and leaves the same bytes; a refusal leaves them alone.
pub fn one(session: &Session, before: &Function, record: &[u8], reply: &Reply, number: usize) -> Vec<String> {
    let mut faults = Vec::new();
    if !may_write(reply) && session.function.instructions != before.instructions {
        faults.push(format!("record {number}: refused, yet bytes changed"));
    }
    if matches!(reply, Reply::Kind(_)) {
        return faults;
    }
    let (whole, after) = session.whole(before, record);
    if !agree(&whole, reply) {
        faults.push(format!("record {number}: the crate says {whole:?}, its parts {reply:?}"));
    }
    if after.instructions != session.function.instructions {
        faults.push(format!("record {number}: the crate leaves other bytes than its parts"));
    }
    faults
}

/// A list: the whole call, and the crate's public call, end as its records one by one.
pub fn list(case: &Case, session: &Session, run: &Run) -> Vec<String> {
    let mut faults = Vec::new();
    let known = run.turns.iter().filter(|t| !matches!(t.reply, Reply::Kind(_))).count();
    let records = &case.records[..16 * known];
    let Some(mut prepared) = Prepared::new(&case.local, &case.insns, case.section, records) else {
        return vec!["the public call does not read the list".to_string()];
    };
    let before = prepared.before();
    let (whole, after) = session.whole(&before, records);
    let last = run.turns[..known].last().map_or(Reply::Poison, |t| t.reply.clone());
    if !agree(&whole, &last) || after.bytes() != run.insns {
        faults.push(format!("the list says {whole:?}, its records {last:?}"));
    }
    let accepted = Read::new(&case.target).and_then(|target| prepared.relocate_caught(&target));
    if accepted != Some(is_applied(&last)) || prepared.insns() != run.insns {
        faults.push(format!("the public call says {accepted:?}, the records {last:?}"));
    }
    faults
}
