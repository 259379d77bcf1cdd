//! Made files: the same from the same seed, whole, with as many calls as were
//! asked for, and together meeting every row of the cover table.

use std::collections::HashSet;

use twin::cover::Cover;
use twin::file::{Record, Records};
use twin::make::rng::Rng;
use twin::make::{make, wheels, KINDS};
use twin::perform::perform;

fn made(kind: &str, seed: u64, count: u64) -> Vec<u8> {
    let mut bytes = Vec::new();
    assert!(make(kind, seed, count, &mut bytes).unwrap(), "{kind}");
    bytes
}

/// The number of calls of a whole file.
fn calls(bytes: &[u8]) -> u64 {
    let mut records = Records::new(bytes);
    let mut calls = 0;
    while let Some(record) = records.next_record().expect("a made file is whole") {
        calls += u64::from(matches!(record, Record::Call(_)));
    }
    calls
}

#[test]
fn kinds() {
    for (kind, _) in KINDS {
        let bytes = made(kind, 5, 3000);
        assert_eq!(calls(&bytes), 3000, "{kind}");
        assert_eq!(bytes, made(kind, 5, 3000), "{kind}");
        assert_ne!(bytes, made(kind, 6, 3000), "{kind}");
    }
}

/// A file of each kind, as long as those of the short setting, leaves no row of
/// the cover table unmet.
#[test]
fn every_row_is_met() {
    let mut cover = Cover::new();
    for (kind, _) in KINDS {
        perform(&made(kind, 1, 25_000), &mut cover).unwrap();
    }
    let mut out = Vec::new();
    cover.write_table(&mut out).unwrap();
    let table = String::from_utf8(out).unwrap();
    let unmet: Vec<&str> = table.lines().filter(|line| line.ends_with(" 0")).collect();
    assert_eq!(unmet, [""; 0]);
}

/// Direct orders for a cliff are legal, and all that are at equality or a step
/// from it come, either way round.
#[test]
fn wheels_near_a_cliff() {
    let mut rng = Rng::new(1);
    let mut met = HashSet::new();
    for _ in 0..20_000 {
        let order = wheels::near_a_cliff(&mut rng);
        assert!(order.in_range(), "{order:?}");
        met.insert((order.first, order.second));
    }
    for times in 1..=10 {
        for (step, other_step) in [(0, 0), (1, 0), (-1, 0), (0, 1), (0, -1)] {
            let (fast, slow) = (-49 * times + step, -6 * times + other_step);
            assert!(met.contains(&(fast, slow)), "{fast} {slow}");
            assert!(met.contains(&(slow, fast)), "{slow} {fast}");
        }
    }
}

#[test]
fn fixed_forms() {
    assert_eq!(calls(&made("held-base", 1, 20)), 0);
    for length in ["1", "64", "510"] {
        assert_eq!(calls(&made(&format!("held-run:{length}"), 1, 20)), 20);
    }
    for ids in ["1", "16"] {
        assert_eq!(calls(&made(&format!("query-list:{ids}"), 1, 20)), 20);
    }
    for id in [0, 6, 7, 42] {
        assert_eq!(calls(&made(&format!("query:{id}"), 1, 20)), 20);
    }
    for unknown in [
        "",
        "vali",
        "held-run:511",
        "query:43",
        "query-list:17",
        "malformed:x",
    ] {
        assert!(!make(unknown, 1, 1, &mut Vec::new()).unwrap(), "{unknown}");
    }
}

#[test]
fn malformed_forms() {
    let names = String::from_utf8(made("malformed:list", 0, 0)).unwrap();
    assert!(names.lines().count() > 20);
    for name in names.lines() {
        let bytes = made(&format!("malformed:{name}"), 1, 10);
        let mut records = Records::new(&bytes);
        let fault = loop {
            match records.next_record() {
                Ok(Some(_)) => {}
                Ok(None) => panic!("{name} is whole"),
                Err(fault) => break fault,
            }
        };
        assert!(fault.offset > 0);
    }
}
