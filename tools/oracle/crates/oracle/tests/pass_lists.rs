//! Refusals 14, 17 and 18: the shape, the range and the order of a pass list.
use acorde_core::VoltaBracket;
use acorde_io::pass_lists::fault;
use oracle::{Answer, answer};
use std::collections::BTreeMap;

/// Lists with the number that they are refused with; 0: read.
const LISTS: [(&str, u32); 35] = [
    ("0,1-", 14), ("01", 14), ("00", 14), ("1,", 14), ("1-", 14), ("1--2", 14), ("1,,2", 14), ("1-2-3", 14), ("33,01", 14), ("2,1,", 14),
    ("1-02", 14), ("0-", 14),
    ("0", 17), ("33", 17), ("40,3-1", 17), ("3-1,40", 17), ("2,1,33", 17), ("1,0", 17), ("1-0", 17), ("0-3", 17), ("33,40", 17),
    ("256", 17), ("257", 17), ("4294967297", 17), ("18446744073709551617", 17), ("99999999999999999999999", 17),
    ("2,1", 18), ("1,1", 18), ("3-1", 18), ("2-2", 18), ("1-3,3", 18), ("1-3,2", 18),
    ("1-3,4", 0), ("1,3-5,7", 0), ("1-32", 0),
];

#[test]
fn lists() {
    for (list, number) in LISTS {
        assert_eq!(fault(list).unwrap_or(0), number, "{list}");
        for behind in ["A", " A", "]A", "|A"] {
            let found = match answer(format!("K:C\n[{list}{behind}").as_bytes()) {
                Answer::Refused(found, 2) => found,
                Answer::Reading { .. } => 0,
                other => panic!("{list}: {other:?}"),
            };
            assert_eq!(found, number, "[{list}{behind}");
        }
    }
}

#[test]
fn the_first_list_of_a_text_is_refused() {
    assert_eq!(answer(b"K:C\n[3-1A[01"), Answer::Refused(18, 2));
    assert_eq!(answer(b"K:C\n[1A[01\n[3-1A"), Answer::Refused(14, 2));
    assert_eq!(answer(b"K:C\n[1A\n[0A[01"), Answer::Refused(17, 3));
}

/// On all runs of up to six bytes the lists that are not refused are those that are read.
#[test]
fn what_is_not_refused_is_read() {
    let mut runs = vec![String::new()];
    let mut found = BTreeMap::new();
    for _ in 0..=6 {
        for run in &runs {
            let fault = fault(run);
            *found.entry(fault.unwrap_or(0)).or_insert(0) += 1;
            assert_eq!(fault.is_none(), !VoltaBracket::parse_passes(run).is_empty(), "{run}");
        }
        runs = runs.iter().flat_map(|run| "01239,-".chars().map(move |next| format!("{run}{next}"))).collect();
    }
    assert_eq!(found.values().sum::<i32>(), (0..=6).map(|length| 7i32.pow(length)).sum());
    // None of the four is rare.
    assert!([0, 14, 17, 18].iter().all(|number| found.get(number) > Some(&100)), "{found:?}");
}
