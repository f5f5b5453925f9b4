//! How often each thing happened, so that a test can see that it tried enough.

use std::collections::BTreeMap;

#[derive(Default)]
pub struct Tally {
    counts: BTreeMap<String, usize>,
}

impl Tally {
    /// Counts a thing once more.
    pub fn add(&mut self, name: &str) {
        *self.counts.entry(name.to_string()).or_default() += 1;
    }

    /// Counts a thing once more where it happened.
    pub fn add_if(&mut self, happened: bool, name: &str) {
        if happened {
            self.add(name);
        }
    }

    /// Counts a call by its number.
    pub fn add_number(&mut self, number: u32) {
        self.add(&number_name(number));
    }

    /// Counts a call by its k.
    pub fn add_k(&mut self, k: u32) {
        self.add(&k_name(k));
    }

    /// Counts a call by its K.
    pub fn add_places(&mut self, places: u32) {
        self.add(&places_name(places));
    }

    pub fn assert_at_least(&self, least: usize, name: &str) {
        let count = self.counts.get(name).copied().unwrap_or(0);
        assert!(count >= least, "{name}: {count} of at least {least}");
    }

    /// Sees that each of the numbers came often enough.
    pub fn assert_numbers(&self, least: usize, numbers: &[u32]) {
        for &number in numbers {
            self.assert_at_least(least, &number_name(number));
        }
    }

    /// Sees that each k from 1 to 16 came often enough.
    pub fn assert_each_k(&self, least: usize) {
        for k in 1..=16 {
            self.assert_at_least(least, &k_name(k));
        }
    }

    /// Sees that each K from 2 to 17 came often enough.
    pub fn assert_each_places(&self, least: usize) {
        for places in 2..=17 {
            self.assert_at_least(least, &places_name(places));
        }
    }

    pub fn print(&self) {
        for (name, count) in &self.counts {
            println!("{count:>9} {name}");
        }
    }
}

fn number_name(number: u32) -> String {
    format!("number {number:>2}")
}

fn k_name(k: u32) -> String {
    format!("k {k:>2}")
}

fn places_name(places: u32) -> String {
    format!("K {places:>2}")
}
