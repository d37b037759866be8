//! Joins of trees damaged on either side, or on both: refused under the number
//! and side that the reading of the rules gives, and nothing is touched.

use crate::cases::{Case, Size};
use crate::joins;
use crate::report::Report;
use crate::rooms::Stored;
use crate::rules;
use crate::trees::{damage, BROKEN};
use oracle::rng::Rng;
use oulavisok::numbers::{self, Numbers};

pub fn compare(report: &mut Report, rng: &mut Rng, cases: u64) {
    for number in 0..cases {
        let case = match number % 20 {
            0 => Case {
                kind: "at the limits".into(),
                ..Case::any(Size::Limits, report, rng)
            },
            _ => damaged(Case::any(Size::Ordinary, report, rng), rng),
        };
        match due_of(&case) {
            // The damage only seemed one.
            (0, _) => joins::sound(&case, report, rng),
            (number, side) => refused(&case, number, side, report, rng),
        }
    }
}

/// Sides damaged one after the other.
const PLANS: [&[usize]; 6] = [&[0], &[1], &[1], &[0, 0], &[1, 1], &[0, 1]];

pub fn damaged(mut case: Case, rng: &mut Rng) -> Case {
    case.kind = "several damages".into();
    let plan = rng.pick(&PLANS);
    for side in plan {
        let (one, other) = match side {
            0 => (&mut case.left, &mut case.right),
            _ => (&mut case.right, &mut case.left),
        };
        let name = damage(one, rng);
        if plan.len() == 1 {
            case.kind = name.into();
        }
        // A call has one K.
        other.k = one.k;
        case.k = one.k;
    }
    case
}

/// The number and side due: the left wholly, then the right.
pub fn due_of(case: &Case) -> (u32, u64) {
    match (
        rules::first_broken(&case.left),
        rules::first_broken(&case.right),
    ) {
        (0, right) => (right, u64::from(right != 0)),
        (left, _) => (left, 0),
    }
}

fn refused(case: &Case, number: u32, side: u64, report: &mut Report, rng: &mut Rng) {
    report.draw(
        ["refused left", "refused right"][side as usize],
        BROKEN[number as usize],
    );
    let due = Numbers {
        refusal: number,
        side,
        found: 0,
        visits: 0,
        measured: 0,
        ruled_out: 0,
        taken_whole: 0,
    };
    let radius = rng.pick(&[0.0, 1.0, f64::NAN, f64::INFINITY, -1.0]);
    let (k, left, right) = (case.k, case.left.ours(), case.right.ours());
    for join in [numbers::pairs_up_to, numbers::pairs_under] {
        // Rooms are looked at last, whether they differ or not.
        let mut stored = Stored::of_lengths([rng.pick(&[3, 4]), 4, 4]);
        let told = join(k, radius, left, right, stored.rooms());
        tell(case, told, due, stored.hold(&[]), report);
    }
    for join in [numbers::counts_up_to, numbers::counts_under] {
        let told = join(k, radius, left, right);
        tell(case, told, due, true, report);
    }
}

fn tell(case: &Case, told: Numbers, due: Numbers, untouched: bool, report: &mut Report) {
    if told.refusal != 0 {
        report.count("calls refused for a tree");
    }
    let alike = told == due && untouched;
    report.case("join refused", &case.kind, alike, || {
        format!("K={}: untouched {untouched}, {told:?}, not {due:?}", case.k)
    });
}
