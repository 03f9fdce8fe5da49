//! The plain queue: "a list of live events" in order of insertion, and nothing else.

use crate::record::Record;

#[derive(Clone, Default)]
pub struct PlainQueue {
    /// In order of insertion, which is the order of stamps.
    pub events: Vec<Record>,
}

impl PlainQueue {
    pub fn insert(&mut self, event: Record) {
        self.events.push(event);
    }

    /// The place of the smallest key; of equal keys the one inserted first.
    pub fn least_place(&self) -> Option<usize> {
        let mut best: Option<usize> = None;
        for (place, event) in self.events.iter().enumerate() {
            match best {
                Some(old) if self.events[old].key <= event.key => {}
                _ => best = Some(place),
            }
        }
        best
    }

    pub fn least(&self) -> Option<Record> {
        self.least_place().map(|place| self.events[place])
    }

    pub fn extract(&mut self) -> Option<Record> {
        self.least_place().map(|place| self.events.remove(place))
    }

    /// Removes the event with this label and stamp; false if there is none.
    pub fn delete(&mut self, label: u64, stamp: u64) -> bool {
        let before = self.events.len();
        self.events
            .retain(|event| event.label != label || event.stamp != stamp);
        self.events.len() < before
    }
}
