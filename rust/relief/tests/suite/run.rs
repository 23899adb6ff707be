//! Run.

use relief::{run, Figures, Outcome, Reason, Refusal, Rounds, Terms, MAX_QUICK};

use crate::support::{faulty_terms, refused, NONE, SAMPLES, TERMS};

/// Run on the job, with its flow and image.
fn run_two_by_one(quick: u32, allowance: u16) -> (Result<Figures, Refusal>, i32, [i32; 2]) {
    let rounds = Rounds { quick, allowance };
    let (mut flow, mut image, mut work) = ([-1], [-1; 2], [-1; 2]);
    let figures = run(
        &TERMS, &rounds, &SAMPLES, &NONE, &mut flow, &mut image, &mut work,
    );
    let kept = if figures.is_ok() { 0 } else { -1 };
    assert_eq!(work, [kept; 2]);
    (figures, flow[0], image)
}

#[test]
fn steady_rounds() {
    let settled = Figures {
        outcome: Outcome::Settled,
        moved: 17,
        price: 131_080,
        floor: 131_064,
        slack: 16,
    };
    assert_eq!(run_two_by_one(0, 100), (Ok(settled), -254, [382, 386]));
    assert_eq!(run_two_by_one(0, 17), (Ok(settled), -254, [382, 386]));
    let spent = Figures {
        outcome: Outcome::Spent,
        moved: 16,
        price: 131_090,
        floor: 131_054,
        slack: 36,
    };
    assert_eq!(run_two_by_one(0, 16), (Ok(spent), -253, [381, 387]));
}

#[test]
fn quick_rounds() {
    let spent = Figures {
        outcome: Outcome::Spent,
        moved: 0,
        price: 150_674,
        floor: 111_470,
        slack: 39_204,
    };
    assert_eq!(run_two_by_one(3, 0), (Ok(spent), -157, [285, 483]));
}

#[test]
fn weights() {
    let terms = Terms { width: 3, ..TERMS };
    let rounds = Rounds {
        quick: 0,
        allowance: 100,
    };
    let (mut flow, mut image, mut work) = ([-1; 2], [-1; 3], [-1; 4]);
    let mut run_with = |weights: &[i32]| {
        let samples = [0, 2, 100];
        run(
            &terms, &rounds, &samples, weights, &mut flow, &mut image, &mut work,
        )
        .map(|figures| (figures.moved, figures.slack, flow, image, work))
    };
    let joint = (17, 16, [-254, 0], [382, 386, 25_728], [0; 4]);
    assert_eq!(run_with(&[256, 0]), Ok(joint));
    let unweighted = (5, 0, [-256, -256], [384, 640, 25_472], [0; 4]);
    assert_eq!(run_with(&NONE), Ok(unweighted));
    assert_eq!(run_with(&[256, 256]), Ok(unweighted));
}

/// Two by two, each pair with another weight; the third is not reached.
#[test]
fn quick_rounds_with_weights() {
    let terms = Terms { height: 2, ..TERMS };
    let rounds = Rounds {
        quick: 2,
        allowance: 0,
    };
    let (mut flow, mut image, mut work) = ([-1; 4], [-1; 4], [-1; 8]);
    let figures = run(
        &terms,
        &rounds,
        &[0, 10, 20, 40],
        &[100, 0, 700, 50],
        &mut flow,
        &mut image,
        &mut work,
    );
    let spent = Figures {
        outcome: Outcome::Spent,
        moved: 0,
        price: 4_031_818,
        floor: 3_613_822,
        slack: 417_996,
    };
    assert_eq!(figures, Ok(spent));
    assert_eq!(flow, [-100, 0, -547, -50]);
    assert_eq!(image, [775, 2_141, 5_198, 10_318]);
    assert_eq!(work, [0; 8]);
}

#[test]
fn no_pairs() {
    let terms = Terms { width: 1, ..TERMS };
    let mut image = [-1];
    let rounds = Rounds::default();
    let figures = run(&terms, &rounds, &[7], &NONE, &mut [], &mut image, &mut []).unwrap();
    assert_eq!((figures.outcome, figures.moved), (Outcome::Settled, 0));
    assert_eq!(image, [1_920]);
}

#[test]
fn refusals() {
    for (terms, reason) in faulty_terms() {
        let rounds = Rounds::default();
        let answer = run(&terms, &rounds, &[], &[-1], &mut [], &mut [], &mut []);
        assert_eq!(answer, refused(reason, 0));
    }
    let too_quick = refused(Reason::QuickRounds, 0);
    assert_eq!(run_two_by_one(MAX_QUICK + 1, 0), (too_quick, -1, [-1; 2]));
    let faults: [(&[i32], _, _); 7] = [
        (&[-1; 2], [1, 0, 1, 1], Reason::SamplesLength),
        (&[-1; 2], [2, 0, 1, 1], Reason::FlowLength),
        (&[-1; 2], [2, 1, 1, 1], Reason::WeightsLength),
        (&[-1], [2, 1, 1, 1], Reason::ImageLength),
        (&[-1], [2, 1, 2, 1], Reason::WorkLength),
        (&[-1], [2, 1, 2, 2], Reason::Weight),
        (&[65_281], [2, 1, 2, 2], Reason::Weight),
    ];
    for (weights, [samples, flow, image, work], reason) in faults {
        let samples = vec![0; samples];
        let mut lent = [flow, image, work].map(|length| vec![-1; length]);
        let before = lent.clone();
        let [flow, image, work] = &mut lent;
        let rounds = Rounds::default();
        let answer = run(&TERMS, &rounds, &samples, weights, flow, image, work);
        assert_eq!((answer, lent), (refused(reason, 0), before));
    }
}
