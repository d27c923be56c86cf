//! What many cases came to: counts, and differences, the first of them in full.

use std::collections::BTreeMap;
use std::thread;

/// Differences that are printed in full; the others are counted.
pub const MOST_REPORTS: usize = 5;

pub struct Tally<K> {
    pub counts: BTreeMap<K, usize>,
    differing: usize,
    reports: BTreeMap<usize, String>,
}

impl<K: Ord + Send> Tally<K> {
    pub fn empty() -> Tally<K> {
        Tally { counts: BTreeMap::new(), differing: 0, reports: BTreeMap::new() }
    }

    /// The cases below a number, shared out among as many threads as there are processors.
    pub fn of(cases: usize, add: impl Fn(&mut Tally<K>, usize) + Sync) -> Tally<K> {
        let threads = thread::available_parallelism().map_or(1, |number| number.get());
        let share = |first: usize| {
            let mut tally = Tally::empty();
            (first..cases).step_by(threads).for_each(|index| add(&mut tally, index));
            tally
        };
        thread::scope(|scope| {
            let share = &share;
            let start = |first: usize| scope.spawn(move || share(first));
            let started: Vec<_> = (0..threads).map(start).collect();
            let joined = started.into_iter().map(|thread| thread.join().expect("a thread ends"));
            joined.fold(Tally::empty(), Tally::merge)
        })
    }

    /// A count of 0 leaves no trace, so that the key is missing.
    pub fn count(&mut self, key: K, number: usize) {
        if number > 0 {
            *self.counts.entry(key).or_default() += number;
        }
    }

    pub fn differ(&mut self, index: usize, report: impl FnOnce() -> String) {
        self.differing += 1;
        if self.reports.len() < MOST_REPORTS {
            self.reports.insert(index, report());
        }
    }

    fn merge(mut self, other: Tally<K>) -> Tally<K> {
        for (key, number) in other.counts {
            self.count(key, number);
        }
        self.differing += other.differing;
        self.reports.extend(other.reports);
        self
    }

    pub fn missing(&self, keys: impl IntoIterator<Item = K>) -> Vec<K> {
        keys.into_iter().filter(|key| !self.counts.contains_key(key)).collect()
    }

    /// A line for each count whose key has a name.
    pub fn lines(&self, name: impl Fn(&K) -> Option<String>) -> String {
        let named = self.counts.iter().filter_map(|(key, number)| Some((name(key)?, number)));
        named.map(|(name, number)| format!("{name},{number}\n")).collect()
    }

    /// What is printed; an error where a case differs or a key that should be hit is missing.
    pub fn outcome(
        &self,
        counts: String,
        name: impl Fn(&K) -> String,
        missing: &[K],
        cases: &str,
    ) -> Result<String, String> {
        let first = self.reports.values().take(MOST_REPORTS);
        let mut text: String = first.map(String::as_str).collect();
        text += &counts;
        for key in missing {
            text += &format!("no case hit {}\n", name(key));
        }
        text += &format!("{cases}, {} differ\n", self.differing);
        match self.differing == 0 && missing.is_empty() {
            true => Ok(text),
            false => Err(text),
        }
    }
}
