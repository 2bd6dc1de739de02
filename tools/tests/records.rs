//! What is wrong with a record, with its byte place.

use reference::build;
use tools::{assemble, disassemble};

fn sample() -> Vec<u8> {
    assemble(include_bytes!("sample.csl")).unwrap_or_else(|fault| panic!("{fault}")).bytes
}

fn fault(bytes: &[u8]) -> String {
    match disassemble(bytes) {
        Ok(text) => panic!("{text}"),
        Err(fault) => fault.to_string(),
    }
}

/// The fault of the sample with some bytes exchanged.
fn with(at: usize, bytes: &[u8]) -> String {
    let mut record = sample();
    record[at..at + bytes.len()].copy_from_slice(bytes);
    fault(&record)
}

#[test]
fn lengths() {
    assert_eq!(fault(&[]), "byte 0: 0 bytes are no record");
    assert_eq!(fault(&sample()[..63]), "byte 0: a record of 64 bytes in 63 bytes");
    assert_eq!(fault(&[0; 16_385]), "byte 0: 16385 bytes: an agreement has at most 16,384");
    assert_eq!(with(11, &[5]), "byte 16: the record ends before its parts do");
    assert_eq!(with(11, &[3]), "byte 11: a record of 3 bytes where 53 are left");
    assert_eq!(with(11, &[54]), "byte 11: a record of 54 bytes where 53 are left");
    assert_eq!(with(15, &[0]), "byte 16: 1 bytes are left over in the record");
}

#[test]
fn kinds_and_counts() {
    assert_eq!(with(2, &[2]), "byte 2: kind 2 where an agreement, kind 1, must be");
    assert_eq!(with(8, &[0]), "byte 8: 0 parties where 1 to 16 may be");
    assert_eq!(with(8, &[17]), "byte 8: 17 parties where 1 to 16 may be");
    assert_eq!(with(9, &[0]), "byte 9: 0 readings where 1 to 16 may be");
    assert_eq!(with(10, &[33]), "byte 10: 33 templates where 0 to 32 may be");
    assert_eq!(with(10, &[1]), "byte 19: kind 17 where a template, kind 3 or 4, must be");
    assert_eq!(with(13, &[3]), "byte 13: kind 3 where a reading type, kind 2, must be");
    assert_eq!(with(15, &[5]), "byte 15: 5 values where 0 to 4 may be");
    assert_eq!(with(16, &[4]), "byte 16: type 4 where 1, 2 or 3 must be");
    assert_eq!(with(19, &[23]), "byte 19: kind 23 where a clause, kind 16 to 22, must be");
    assert_eq!(with(29, &[44]), "byte 29: kind 44 where an expression, kind 32 to 43, must be");
}

/// Two templates of one kind, with or without units; then one of them is made one of the other kind.
#[test]
fn kinds_of_templates() {
    let record = |sized: &str| {
        let templates = format!("f(n: number, p: party){sized} = fulfilment g(){sized} = fulfilment");
        let text = format!("parties A readings E() letrec {templates} in fulfilment starting 0");
        assemble(text.as_bytes()).unwrap_or_else(|fault| panic!("{fault}")).bytes
    };
    let fault = |mut record: Vec<u8>, at: usize, byte: u8| {
        record[at] = byte;
        fault(&record)
    };
    let (plain, sized) = (record(""), record(" sized 128"));
    assert_eq!((plain[18], plain[32], sized[18], sized[33]), (3, 3, 4, 4));
    assert_eq!(fault(plain.clone(), 32, 4), "byte 32: kind 4 where a template, kind 3 as the first, must be");
    assert_eq!(fault(sized.clone(), 33, 3), "byte 33: kind 3 where a template, kind 4 as the first, must be");
    assert_eq!(fault(sized.clone(), 33, 5), "byte 33: kind 5 where a template, kind 4 as the first, must be");
    assert_eq!(fault(sized.clone(), 18, 5), "byte 18: kind 5 where a template, kind 3 or 4, must be");
    assert_eq!((sized[26], sized[39]), (128, 128));
    assert_eq!(fault(sized.clone(), 26, 129), "byte 26: 129 units where 0 to 128 may be");
    assert_eq!(fault(sized, 39, 255), "byte 39: 255 units where 0 to 128 may be");
}

#[test]
fn what_is_not_there() {
    assert_eq!(with(21, &[2]), "byte 21: blame 2, which is no party and no party parameter here");
    assert_eq!(with(21, &[128]), "byte 21: blame 128, which is no party and no party parameter here");
    assert_eq!(with(22, &[0]), "byte 22: reading type 0 where 1 to 1 may be");
    assert_eq!(with(22, &[2]), "byte 22: reading type 2 where 1 to 1 may be");
    assert_eq!(with(35, &[1]), "byte 35: value 1, beyond the 1 there are (counted from 0)");
    assert_eq!(with(33, &[34, 0, 2]), "byte 35: party 2, beyond the 2 there are (counted from 0)");
    assert_eq!(with(33, &[33, 0, 2]), "byte 35: truth 2, beyond the 2 there are (counted from 0)");
    let beyond = "byte 40: number 1000000001, beyond plus or minus 1,000,000,000";
    assert_eq!(with(40, &1_000_000_001_i32.to_le_bytes()), beyond);
    let types = [build::reading_type(&[])];
    let instance = build::agreement(0, 1, &types, &[], &build::instance(0, &[], &[]));
    assert_eq!(fault(&instance), "byte 20: template 0, beyond the 0 there are (counted from 0)");
    let template = build::template(&[], 0, 2, &build::fulfilled());
    let declared = build::agreement(0, 1, &types, &[template], &build::fulfilled());
    assert_eq!(fault(&declared), "byte 22: a declared party beyond the 1 there are");
}

#[test]
fn too_deep_and_too_much_in_sight() {
    let types = [build::reading_type(&[])];
    let nested = |count| (0..count).fold(build::truth(1), |inner, _| build::not(&inner));
    let deep = |count| build::if_clause(&nested(count), &build::fulfilled(), &build::fulfilled());
    let record = |count| build::agreement(0, 1, &types, &[], &deep(count));
    assert!(disassemble(&record(21)).is_ok());
    assert_eq!(fault(&record(22)), "byte 108: records nested deeper than 24");
    let waits =
        |count| (0..count).fold(build::fulfilled(), |then, _| build::Wait { then, ..build::simple(1) }.obligation(0));
    let record = |count| build::agreement(0, 1, &types, &[], &waits(count));
    assert!(disassemble(&record(16)).is_ok());
    assert!(fault(&record(17)).ends_with(": 17 values in sight: at most 16"));
}
