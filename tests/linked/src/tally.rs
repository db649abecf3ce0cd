//! How many calls of each sort were compared, by what the separate implementation told.

use crate::cases::Case;
use std::collections::BTreeMap;

/// How often each thing was told.
type Counts = BTreeMap<String, u64>;

/// Counts of calls.
#[derive(Debug, Default)]
pub struct Tally {
    pub compared: u64,
    pub different: u64,
    sorts: BTreeMap<(&'static str, &'static str), Counts>,
}

/// What a function tells that wrote no words.
const UNFILLED: [&str; 9] = [
    "load 1",
    "load 2",
    "load 3",
    "load 4",
    "load 5",
    "load 6",
    "load 7",
    "broken off",
    "too short",
];

/// What each function can tell, in parts.
const ALL: [(&str, &[&[&str]]); 4] = [
    (
        "check_trace",
        &[&["accepted", "1", "2", "3", "4", "5", "6", "7", "20", "21"]],
    ),
    ("run", &[&["done"], &UNFILLED]),
    (
        "stranded_after",
        &[&["none", "one", "several", "sixteen"], &UNFILLED],
    ),
    ("text", &[&["ok", "refused", "line", "too short"]]),
];

impl Tally {
    /// Counts a compared call.
    pub fn add(&mut self, case: &Case, told: String, different: bool) {
        let key = (case.call.function(), case.sort);
        *self.sorts.entry(key).or_default().entry(told).or_insert(0) += 1;
        self.compared += 1;
        self.different += u64::from(different);
    }

    /// How often a function told something.
    pub fn count(&self, function: &str, told: &str) -> u64 {
        let of_function = self.sorts.iter().filter(|((name, _), _)| *name == function);
        of_function.filter_map(|(_, counts)| counts.get(told)).sum()
    }

    /// The functions and what they never told.
    pub fn missing(&self) -> Vec<(&'static str, &'static str)> {
        let mut all: Vec<_> = ALL
            .iter()
            .flat_map(|&(name, parts)| parts.concat().into_iter().map(move |told| (name, told)))
            .collect();
        all.retain(|(name, told)| self.count(name, told) == 0);
        all
    }

    /// A line for each sort of call, then one for each function.
    pub fn print(&self) -> String {
        let mut text = String::new();
        for ((function, sort), counts) in &self.sorts {
            let told: Vec<String> = counts
                .iter()
                .map(|(told, count)| format!("{told}: {count}"))
                .collect();
            let total: u64 = counts.values().sum();
            text.push_str(&format!(
                "{function}, {sort}: {total} ({})\n",
                told.join(", ")
            ));
        }
        for (function, parts) in ALL {
            let told: Vec<String> = parts
                .concat()
                .iter()
                .map(|told| format!("{told}: {}", self.count(function, told)))
                .collect();
            text.push_str(&format!("all of {function}: {}\n", told.join(", ")));
        }
        text
    }
}
