//! The library that is linked is of this crate's version, and one of another version is refused.

use planner::{check_version, packet, raw, version, Planner, Refusal, Setting, VERSION};

#[test]
fn versions_agree() {
    assert_eq!((version(), packet::version()), (VERSION, VERSION));
    assert_eq!(check_version(), Ok(()));
    assert!(env!("CARGO_PKG_VERSION").starts_with(&format!("{VERSION}.")));
}

// There is no planner over it, whichever way.
#[test]
#[ignore = "needs a library of another version"]
fn another_version_is_refused() {
    assert_ne!((version(), packet::version()), (VERSION, VERSION));
    assert_eq!(check_version(), Err(Refusal::OtherVersion));
    let opened = Planner::open(Setting { slots: 2, frame: 6, gap: 6, last: 0, messages: false });
    let handed = Planner::from_bytes(&[0; Planner::BYTES]);
    for planner in [opened, handed, Planner::from_raw(raw::Planner::ZEROS)] {
        assert_eq!(planner.unwrap_err(), Refusal::OtherVersion);
    }
}
