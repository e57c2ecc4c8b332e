//! Document 02, C-13: which of the two is the allowance of a row, how near the other is, and a tally of that.

use crate::component::{Component, Kind, RATIO_RANGE};
use crate::loss::{five_percent, measured_steps, newton_metre_at_wheel};
use std::cmp::Ordering;
use std::collections::BTreeMap;
use std::fmt;

/// How 5 % of a loss stands to 1 Nm times the ratio; the larger one is the allowance.
#[derive(Clone, Copy, PartialEq, Eq, PartialOrd, Ord, Debug)]
pub enum Standing {
    Below,
    /// The loss is one step smaller than where both are equal.
    StepBelow,
    Equal,
    /// The loss is one step larger.
    StepAbove,
    Above,
}

impl Standing {
    pub const ALL: [Standing; 5] = [
        Standing::Below,
        Standing::StepBelow,
        Standing::Equal,
        Standing::StepAbove,
        Standing::Above,
    ];

    /// Of a loss in thousandths of a hundredth of Nm.
    fn of(ratio: u16, loss: u128) -> Standing {
        let (five_percent, at_wheel) = (five_percent(loss), newton_metre_at_wheel(ratio));
        // A step of the loss moves 5 % of it by as many parts.
        let near = five_percent.abs_diff(at_wheel) <= loss_step(ratio).into();
        match five_percent.cmp(&at_wheel) {
            Ordering::Less if near => Standing::StepBelow,
            Ordering::Less => Standing::Below,
            Ordering::Equal => Standing::Equal,
            Ordering::Greater if near => Standing::StepAbove,
            Ordering::Greater => Standing::Above,
        }
    }

    fn name(self) -> &'static str {
        match self {
            Standing::Below => "below",
            Standing::StepBelow => "a step below",
            Standing::Equal => "equal",
            Standing::StepAbove => "a step above",
            Standing::Above => "above",
        }
    }
}

/// The steps of a loss under a ratio, in thousandths of a hundredth of Nm: the largest number that both the ratio and 1,000 are multiples of.
pub fn loss_step(ratio: u16) -> u16 {
    let divides = |step: &u16| ratio.is_multiple_of(*step) && 1_000_u16.is_multiple_of(*step);
    (1..=1_000).rev().find(divides).expect("1 divides all")
}

/// Where a ratio is in its range.
#[derive(Clone, Copy, PartialEq, Eq, PartialOrd, Ord, Debug)]
pub enum RatioPlace {
    Lowest,
    Between,
    Highest,
}

impl RatioPlace {
    const ALL: [RatioPlace; 3] = [RatioPlace::Lowest, RatioPlace::Between, RatioPlace::Highest];

    fn of(ratio: u16) -> RatioPlace {
        if ratio == *RATIO_RANGE.start() {
            RatioPlace::Lowest
        } else if ratio == *RATIO_RANGE.end() {
            RatioPlace::Highest
        } else {
            RatioPlace::Between
        }
    }

    fn name(self) -> &'static str {
        match self {
            RatioPlace::Lowest => "ratio 1.000",
            RatioPlace::Between => "ratio between",
            RatioPlace::Highest => "ratio 20.000",
        }
    }
}

const MEASURED_KINDS: [u8; 2] = [2, 3];

/// How many rows of built maps had which standing, those whose loss uncertainty is above the allowance.
#[derive(Default)]
pub struct Allowances {
    rows: BTreeMap<(u8, RatioPlace, Standing), u64>,
}

impl Allowances {
    /// The rows of a component that the build accepts.
    pub fn add(&mut self, component: &Component) {
        let Kind::Measured(measured) = &component.kind else {
            return;
        };
        let (kind, ratio) = (component.kind.number(), component.ratio);
        for row in &measured.rows {
            let steps = measured_steps(ratio, measured, row).expect("no loss under zero");
            if steps.above_allowance > 0 {
                let standing = Standing::of(ratio, steps.loss);
                let key = (kind, RatioPlace::of(ratio), standing);
                *self.rows.entry(key).or_default() += 1;
            }
        }
    }

    /// Each kind and place with a count for each standing.
    fn groups(&self) -> Vec<(String, [(&'static str, u64); 5])> {
        let mut groups = Vec::new();
        for kind in MEASURED_KINDS {
            for place in RatioPlace::ALL {
                let count = |standing: Standing| {
                    let found = self.rows.get(&(kind, place, standing));
                    (standing.name(), found.copied().unwrap_or(0))
                };
                let place = place.name();
                let name = format!("rows of kind {kind}, {place}, 5 % to 1 Nm × ratio");
                groups.push((name, Standing::ALL.map(count)));
            }
        }
        groups
    }

    /// Each count under its name.
    pub fn counts(&self) -> Vec<(String, u64)> {
        let mut counts = Vec::new();
        for (group, standings) in self.groups() {
            let named = standings.map(|(name, count)| (format!("{group}, {name}"), count));
            counts.extend(named);
        }
        counts
    }
}

impl fmt::Display for Allowances {
    fn fmt(&self, f: &mut fmt::Formatter) -> fmt::Result {
        for (group, standings) in self.groups() {
            let counts = standings.map(|(name, count)| format!("{name} {count}"));
            writeln!(f, "{group}: {}", counts.join(", "))?;
        }
        Ok(())
    }
}

#[cfg(test)]
mod tests {
    use super::*;

    #[test]
    fn steps_of_a_loss() {
        let ratios = [1_000, 1_001, 3_000, 3_725, 3_727, 19_996, 19_998, 20_000];
        assert_eq!(ratios.map(loss_step), [1_000, 1, 1_000, 25, 1, 4, 2, 1_000]);
    }

    #[test]
    fn standings() {
        // 20 Nm x 3.725 is 74.50 Nm; a step is 0.025 of a hundredth.
        for (loss, standing) in [
            (0, Standing::Below),
            (7_449_950, Standing::Below),
            (7_449_975, Standing::StepBelow),
            (7_450_000, Standing::Equal),
            (7_450_025, Standing::StepAbove),
            (7_450_050, Standing::Above),
        ] {
            assert_eq!(Standing::of(3_725, loss), standing);
        }
    }
}
