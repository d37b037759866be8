//! What was compared, and where the two sides differ.

use std::collections::BTreeMap;

#[derive(Default)]
pub struct Report {
    /// Cases by part and kind.
    cases: BTreeMap<(&'static str, String), u64>,
    /// How often each radius, room, damage .. was drawn.
    drawn: BTreeMap<(&'static str, &'static str), u64>,
    /// What else was counted.
    counted: BTreeMap<&'static str, u64>,
    differences: u64,
}

/// Differences shown; the rest are counted.
const SHOWN: u64 = 8;

impl Report {
    /// Counts one case; shows `told` unless both sides are the same.
    pub fn case(
        &mut self,
        part: &'static str,
        kind: &str,
        same: bool,
        told: impl FnOnce() -> String,
    ) {
        *self.cases.entry((part, kind.to_string())).or_default() += 1;
        if same {
            return;
        }
        if self.differences < SHOWN {
            println!("DIFFERENCE in {part}, {kind}: {}", told());
        }
        self.differences += 1;
    }

    pub fn draw(&mut self, what: &'static str, name: &'static str) {
        *self.drawn.entry((what, name)).or_default() += 1;
    }

    pub fn count(&mut self, what: &'static str) {
        *self.counted.entry(what).or_default() += 1;
    }

    pub fn differences(&self) -> u64 {
        self.differences
    }

    pub fn print(&self) {
        for ((part, kind), count) in &self.cases {
            println!("{count:>8} {part}: {kind}");
        }
        println!("drawn:");
        for ((what, name), count) in &self.drawn {
            println!("{count:>8} {what}: {name}");
        }
        for (what, count) in &self.counted {
            println!("{count} {what}");
        }
        let total: u64 = self.cases.values().sum();
        println!("{total} cases, {} differences", self.differences);
    }
}

/// The same bits, or both NaN.
pub fn same(a: f64, b: f64) -> bool {
    a.to_bits() == b.to_bits() || (a.is_nan() && b.is_nan())
}
