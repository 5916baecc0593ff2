//! The superframe: Annex 9.1 to 9.4, and the last row of C.4.

use planner::{superframe, Refusal};

#[test]
fn least_common_multiples() {
    assert_eq!(superframe(&[]), Ok(1));
    assert_eq!(superframe(&[1]), Ok(1));
    assert_eq!(superframe(&[240]), Ok(240));
    assert_eq!(superframe(&[5, 7, 15]), Ok(105));
    assert_eq!(superframe(&[240, 7, 9]), Ok(5_040));
    assert_eq!(superframe(&[9, 7, 240, 7, 9]), Ok(5_040));
}

// 18 is tested of the whole list before 19.
#[test]
fn refusals() {
    assert_eq!(superframe(&[240, 7, 11]), Err(Refusal::LongFrame));
    for periods in [&[0][..], &[241], &[12, 255], &[240, 7, 11, 0]] {
        assert_eq!(superframe(periods), Err(Refusal::BadPeriodOfList), "{periods:?}");
    }
    assert_eq!(Refusal::BadPeriodOfList.number(), 18);
    assert_eq!(Refusal::LongFrame.number(), 19);
}
