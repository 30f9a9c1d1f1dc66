//! The runs find what they must: each fault of the stand-in is found, and without one
//! nothing is.

use runs::call::Call;
use runs::compare::{Buffers, Check};
use runs::library::{Fault, Standin};
use runs::safe::{SafeCall, Told};
use runs::shrink::shrink;
use runs::stages;

/// The first check that differs, of at most `most` to a stage.
fn first(library: &Standin, most: u64) -> Option<Check> {
    let mut buffers = Buffers::default();
    for stage in stages::all(7) {
        if stage.name == stages::LONG {
            continue;
        }
        for number in 0..stage.count.unwrap_or(most).min(most) {
            let check = stage.check(number);
            if buffers.check(library, &check).is_some() {
                return Some(check);
            }
        }
    }
    None
}

#[test]
fn each_fault_is_found_and_made_small() {
    for fault in Fault::ALL {
        let library = Standin(Some(fault));
        let found = first(&library, 20_000).unwrap_or_else(|| panic!("{fault:?} is not found"));
        let small = shrink(&library, found);
        if let Check::Format(Call { source, .. }) | Check::Safe(SafeCall::Format { source, .. }) =
            &small
        {
            assert!(source.len() <= 40, "{fault:?}: {small:?}");
        }
        assert!(
            Buffers::default().check(&library, &small).is_some(),
            "{fault:?}"
        );
    }
}

#[test]
fn without_a_fault_nothing_is_found() {
    assert_eq!(first(&Standin(None), 300), None);
}

/// The first batch of each safe stage has imports whose two counts differ, neither of them 0.
#[test]
fn the_two_counts_differ_in_both_safe_stages() {
    let differ = |check: Check| {
        let Check::Safe(call) = check else {
            return false;
        };
        match call.must().told {
            Told::Formatted(f) => {
                f.imports_split.min(f.blank_names) > 0 && f.imports_split != f.blank_names
            }
            _ => false,
        }
    };
    let mut stages = stages::all(7);
    stages.retain(|stage| stage.name.starts_with("safe"));
    assert_eq!(stages.len(), 2);
    for stage in stages {
        let found = (0..64).filter(|n| differ(stage.check(*n))).count();
        assert!(found >= 5, "{}: {found}", stage.name);
    }
}
