//! The demo's function against its small target: values, bytes, report, refusals that name their place.
mod common;

use common::demo;
use leamugi::{check_shape, read_both, relocate, relocate_reported, Btf, Record, RecordKind, Refused, Why};

fn both() -> (Btf, Btf) {
    (Btf::read(demo("local.btf")).expect("a BTF"), Btf::read(demo("target.btf")).expect("a BTF"))
}

#[test]
fn every_record_is_applied() {
    let (local, target) = both();
    let mut insns = demo("insns.bin");
    let records = demo("records.bin");
    let (result, report) = relocate_reported(&local, &target, &mut insns, 0, &records);
    assert_eq!(result, Ok(6));
    // skc_state is at byte 14 of the target's sock_common, the first record's load reads it there.
    assert_eq!(&insns[8..12], &[0x71, 0x12, 14, 0]);
    assert_eq!(report.lines().count(), 24);
    assert_eq!(report.lines().nth(3), Some("value=14"));
}

#[test]
fn one_target_serves_many_functions() {
    let (local, target) = both();
    let records = demo("records.bin");
    for _ in 0..3 {
        let mut insns = demo("insns.bin");
        assert_eq!(relocate(&local, &target, &mut insns, 0, &records), Ok(6));
    }
}

#[test]
fn a_refusal_names_its_place() {
    let (local, target) = both();
    let mut insns = demo("insns.bin");
    let before = insns.clone();
    let mut records = demo("records.bin");
    records[12] = 12;
    let refused = relocate(&local, &target, &mut insns, 0, &records).unwrap_err();
    assert_eq!(refused.number(), 4);
    assert_eq!(refused.applied(), 0);
    assert_eq!(insns, before);
    assert!(matches!(&refused, Refused::Record { record: 0, why: Why::KindTooBig { kind: 12 }, .. }));
    assert_eq!(refused.to_string(), "record 0, of local type id 11 (sock): record kind 12 is above 11");
}

#[test]
fn bytes_of_a_wrong_shape() {
    let (local, target) = both();
    let records = demo("records.bin");
    let wrong = [(9, 0, &records[..]), (8, 4, &records), (8, 0, &records[1..]), (8 * 4097, 0, &[])];
    for (size, section, records) in wrong {
        assert_eq!(relocate(&local, &target, &mut vec![0; size], section, records), Err(Refused::Misshapen));
        assert_eq!(check_shape(&vec![0; size], section, records), Err(Refused::Misshapen));
    }
    assert_eq!(relocate(&local, &target, &mut [0; 8 * 4096], 0, &[]), Ok(0));
    assert_eq!(check_shape(&[0; 8 * 4096], 8, &records), Ok(()));
}

#[test]
fn what_is_refused_before_the_records() {
    let (good, bad, insns) = (demo("local.btf"), vec![], demo("insns.bin"));
    let said = |local: &Vec<u8>, target: &Vec<u8>, records: &[u8]| {
        let refused = read_both(local.clone(), target.clone(), &insns, 0, records).expect_err("refused");
        refused.to_string().split(':').next().unwrap_or_default().to_string()
    };
    assert!(said(&bad, &bad, &[0]).starts_with("instructions and section offset must be"));
    assert_eq!(said(&bad, &bad, &[]), "the local BTF");
    assert_eq!(said(&good, &bad, &[]), "the target BTF");
    assert!(read_both(good.clone(), good.clone(), &insns, 0, &[]).is_ok());
}

#[test]
fn bytes_stay_where_they_are() {
    let (local, target, records) = (demo("local.btf"), demo("target.btf"), demo("records.bin"));
    let lent = Btf::parse(&local[..]).expect("a BTF");
    assert_eq!(lent.bytes().as_ptr(), local.as_ptr());
    // each BTF may be held by something else
    let shared = Btf::parse(std::sync::Arc::<[u8]>::from(target)).expect("a BTF");
    assert_eq!(relocate(&lent, &shared, &mut demo("insns.bin"), 0, &records), Ok(6));
}

#[test]
fn a_btf_is_shown_in_one_line() {
    let target = Btf::read(demo("target.btf")).expect("a BTF");
    assert_eq!(format!("{target:?}"), "Btf(23 types, 396 bytes of strings, 1044 bytes)");
    assert_eq!(format!("{target:#?}"), format!("{target:?}"));
}

#[test]
fn a_cause_is_shown_once() {
    let refused = read_both(demo("local.btf"), vec![], &[], 0, &[]).expect_err("refused");
    let mut chain = vec![refused.to_string()];
    let mut next = std::error::Error::source(&refused);
    while let Some(cause) = next {
        chain.push(cause.to_string());
        next = cause.source();
    }
    assert_eq!(chain.join(": ").matches("fewer than a header's 24").count(), 1);
}

#[test]
fn records_and_their_bytes() {
    let bytes = demo("records.bin");
    let records: Vec<Record> = Record::list(&bytes).collect();
    assert_eq!(records.len(), 6);
    assert_eq!(records[0], Record { insn_offset: 8, type_id: 11, access_offset: records[0].access_offset, kind: 0 });
    assert_eq!(records.iter().flat_map(|record| record.to_bytes()).collect::<Vec<u8>>(), bytes);
    assert_eq!(Record::list(&bytes[1..]).len(), 5);
    for number in 0..12 {
        assert_eq!(RecordKind::from_number(number).map(RecordKind::number), Some(number));
    }
    assert_eq!(RecordKind::from_number(12), None);
    assert_eq!(RecordKind::VariantValue.to_string(), "variant value");
}
