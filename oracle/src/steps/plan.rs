//! Plan: worked numbers, boxes of every kind, and boxes that are too large, of which it is known what a 4 must name.

use super::{boxes, worked, Sizes};
use crate::calls::{compare, Call};
use crate::random::Random;
use crate::report::Report;

pub fn run(random: &mut Random, sizes: &Sizes, report: &mut Report) {
    for (call, _) in worked::plans() {
        compare(&call, report);
    }
    for _ in 0..sizes.plans {
        compare(&boxes::any(random), report);
    }
    for _ in 0..sizes.plans / 2 {
        let (call, names) = boxes::too_large(random);
        let expected = compare(&call, report);
        assert_eq!(
            (expected.number, expected.value),
            (4, names),
            "the model of the plan: {}",
            call.told()
        );
    }
}
