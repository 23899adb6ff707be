//! The rounds of a run: accelerated, then plain gradient projection on the dual
//! (Beck and Teboulle's FGP and GP), in whole numbers.

use std::fmt;

use crate::problem::Problem;

/// A step adds to each flow number its pair's difference divided by this, rounded.
const STEP_DIVISOR: i64 = 8;

/// What stands for 1 in FGP's sequence `t`; also the first of document 01's T.
pub const T_UNIT: u64 = 65_536;

/// How a call ended. It prints as document 01's word.
#[derive(Clone, Copy, Debug, PartialEq, Eq)]
pub enum Outcome {
    /// A given flow or image was judged.
    Checked,
    /// No pair would move any more.
    Settled,
    /// The allowance is used up and some pair would still move.
    Spent,
}

impl fmt::Display for Outcome {
    fn fmt(&self, out: &mut fmt::Formatter<'_>) -> fmt::Result {
        out.write_str(match self {
            Outcome::Checked => "checked",
            Outcome::Settled => "settled",
            Outcome::Spent => "spent",
        })
    }
}

/// What a step adds for a difference, in quick rounds: an eighth of it, rounded toward zero.
pub fn quick_share(difference: i64) -> i64 {
    difference / STEP_DIVISOR
}

/// What a step adds for a difference, in steady rounds: an eighth of it, rounded to the
/// nearest whole number, an exact half toward zero.
pub fn steady_share(difference: i64) -> i64 {
    let toward_zero = difference / STEP_DIVISOR;
    let rest = difference % STEP_DIVISOR;
    if 2 * rest.abs() > STEP_DIVISOR {
        toward_zero + rest.signum()
    } else {
        toward_zero
    }
}

/// One projected gradient step on the dual, which adds to each flow number the `share` of its
/// pair's difference. The flow lent may pass the weights.
fn step(problem: &Problem, flow: &[i64], share: fn(i64) -> i64) -> Vec<i64> {
    let differences = problem.differences(&problem.image_of(flow));
    let stepped = flow
        .iter()
        .zip(differences)
        .map(|(value, difference)| value + share(difference));
    problem.project(stepped)
}

/// The T that follows `t`.
pub fn next_t(t: u64) -> u64 {
    let root = (T_UNIT * T_UNIT + 4 * t * t).isqrt();
    (T_UNIT + root) / 2
}

/// The flow that `count` quick rounds leave (document 01: the last P).
pub fn quick_rounds(problem: &Problem, count: u32) -> Vec<i64> {
    let mut flow = vec![0; problem.pair_count()];
    // The extrapolated flow (document 01: R), which may pass the weights.
    let mut extrapolated = flow.clone();
    let mut t = T_UNIT;
    for _ in 0..count {
        let earlier = flow;
        let following_t = next_t(t);
        let (gain, scale) = ((t - T_UNIT) as i64, following_t as i64);
        flow = step(problem, &extrapolated, quick_share);
        extrapolated = flow
            .iter()
            .zip(&earlier)
            .map(|(now, before)| now + gain * (now - before) / scale)
            .collect();
        t = following_t;
    }
    flow
}

/// What steady rounds leave.
#[derive(Clone, Debug, PartialEq, Eq)]
pub struct Steady {
    /// `Settled` or `Spent`.
    pub outcome: Outcome,
    /// The number of rounds that changed a value.
    pub moved: u32,
    /// The last flow.
    pub flow: Vec<i64>,
}

/// The flow that a steady round leaves.
pub fn steady_step(problem: &Problem, flow: &[i64]) -> Vec<i64> {
    step(problem, flow, steady_share)
}

/// Steady rounds from `flow`, at most `allowance` of them.
pub fn steady_rounds(problem: &Problem, mut flow: Vec<i64>, allowance: u16) -> Steady {
    let mut moved = 0;
    let outcome = loop {
        if first_moving_pair(problem, &flow).is_none() {
            break Outcome::Settled;
        }
        if moved == u32::from(allowance) {
            break Outcome::Spent;
        }
        flow = steady_step(problem, &flow);
        moved += 1;
    };
    Steady {
        outcome,
        moved,
        flow,
    }
}

/// The first pair whose number a steady round would change.
fn first_moving_pair(problem: &Problem, flow: &[i64]) -> Option<usize> {
    let stepped = steady_step(problem, flow);
    (0..flow.len()).find(|&pair| stepped[pair] != flow[pair])
}
