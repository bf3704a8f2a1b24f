//! How often calls were decided in each way.

use second::{Call, Reached, Way};
use std::collections::BTreeMap;

#[derive(Default)]
pub struct Seen(BTreeMap<Way, u32>);

impl Seen {
    /// Counts a call, and gives how it is decided.
    pub fn count(&mut self, image: &[u8], call: &Call) -> Option<Reached> {
        let way = Way::of(call, image)?;
        *self.0.entry(way).or_default() += 1;
        Some(way.reached)
    }

    /// How many calls were counted.
    pub fn total(&self) -> u32 {
        self.0.values().sum()
    }

    /// How many of them were decided like this, by any command.
    pub fn times(&self, reached: Reached) -> u32 {
        let of_it = self.0.iter().filter(|(way, _)| way.reached == reached);
        of_it.map(|(_, times)| times).sum()
    }

    /// Everything but what is named came up, and for each command that it can
    /// come to; no command was decided in a way that is not its own.
    pub fn expect_all_but(&self, missing: &[Reached]) {
        let all = Way::all();
        for way in &all {
            let times = self.0.get(way).copied().unwrap_or(0);
            let total = self.times(way.reached);
            match missing.contains(&way.reached) {
                true => assert_eq!(total, 0, "{way:?}"),
                false => assert!(times >= 3 && total >= 10, "{way:?}: {times} of {total}"),
            }
        }
        for way in self.0.keys() {
            assert!(all.contains(way), "{way:?}");
        }
    }
}
