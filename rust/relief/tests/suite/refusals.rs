//! Refusals as errors.

use std::error::Error;

use relief::{Reason, Refusal};

#[test]
fn a_refusal_says_what_it_is() {
    let refusal = Refusal {
        reason: Reason::FlowValue,
        place: 3,
    };
    assert_eq!(refusal.number(), 8);
    let error: Box<dyn Error> = refusal.into();
    assert_eq!(
        error.to_string(),
        "refused 8 at 3: a flow number is beyond its pair's weight"
    );
}

#[test]
fn every_number_has_its_reason() {
    let reasons: Vec<Reason> = (0..=20).filter_map(Reason::from_number).collect();
    assert_eq!(reasons, Reason::ALL);
    for none in [0, 11, 17, 20, u32::MAX] {
        assert_eq!(Reason::from_number(none), None);
    }
    for reason in Reason::ALL {
        assert_eq!(Reason::from_number(reason.number()), Some(reason));
    }
}
