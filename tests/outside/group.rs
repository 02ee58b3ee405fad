//! A group of tests: its checks are counted, its first failures printed, and then it stops.

use crate::door::{Answer, Expected};
use crate::draw::Draw;
use std::collections::BTreeMap;

// Failures that a group prints before it stops.
const FEW: u64 = 4;

// Times that drawn calls must give each number they can.
const OFTEN: u64 = 100;

/// The group has failed often enough.
pub struct Stop;

pub type Outcome = Result<(), Stop>;

/// A group's name and its tests.
pub type Tests = (&'static str, fn(&mut Group, &mut Draw) -> Outcome);

pub struct Group {
    name: &'static str,
    pub checks: u64,
    pub failed: u64,
}

impl Group {
    /// Counts one check, and gives whether it held.
    pub fn check(&mut self, held: bool, report: impl FnOnce() -> String) -> Result<bool, Stop> {
        self.checks += 1;
        if !held {
            self.failed += 1;
            println!("{}: {}", self.name, report());
        }
        if self.failed < FEW {
            Ok(held)
        } else {
            Err(Stop)
        }
    }

    /// Checks that an answer is the expected one, and gives whether it was.
    pub fn compare(
        &mut self,
        came: &Answer,
        expected: &Expected,
        call: impl FnOnce() -> String,
    ) -> Result<bool, Stop> {
        self.check(came.is(expected), || format!("{}\n  {}", call(), came.against(expected)))
    }

    /// Checks a number that is known beforehand, apart from what is written a second time.
    pub fn known(&mut self, name: &str, number: u8, came: u8) -> Outcome {
        self.check(came == number, || format!("{name}\n  expected {number}\n  came {came}"))?;
        Ok(())
    }
}

/// Runs one group from the seed alone, so that a new group leaves the others' draws as they are.
pub fn run((name, tests): Tests, seed: u64) -> Group {
    let mut group = Group { name, checks: 0, failed: 0 };
    let stopped = tests(&mut group, &mut Draw::new(seed)).is_err();
    let end = if stopped { ", stopped" } else { "" };
    println!("{name}: {} checks, {} failed{end}", group.checks, group.failed);
    group
}

/// How often a call gave each number.
pub struct Tally {
    call: &'static str,
    seen: BTreeMap<u8, u64>,
}

impl Tally {
    pub fn new(call: &'static str) -> Tally {
        Tally { call, seen: BTreeMap::new() }
    }

    pub fn saw(&mut self, number: u8) {
        *self.seen.entry(number).or_default() += 1;
    }

    /// Prints the tally and checks it: these numbers often enough, and no other.
    pub fn settle(&self, group: &mut Group, numbers: &[u8]) -> Outcome {
        self.settle_often(group, numbers, OFTEN)
    }

    /// The same, each of the numbers at least so many times.
    pub fn settle_often(&self, group: &mut Group, numbers: &[u8], often: u64) -> Outcome {
        let calls: u64 = self.seen.values().sum();
        let shown: Vec<String> =
            self.seen.iter().map(|(number, times)| format!("{number} x {times}")).collect();
        println!("{}: {calls} calls gave {}", self.call, shown.join(", "));
        for number in 0..=u8::MAX {
            let times = self.seen.get(&number).copied().unwrap_or(0);
            let (held, asked) = match numbers.contains(&number) {
                true => (times >= often, often),
                false => (times == 0, 0),
            };
            group.check(held, || {
                format!("{} gave {number}\n  expected {asked} times\n  came {times}", self.call)
            })?;
        }
        Ok(())
    }
}
