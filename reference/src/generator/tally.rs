//! How often each label, load number, refusal and line fault came up, and how
//! often a label had a name from outside.

use crate::steps::{Answer, Label};
use crate::terms::is_outside;
use crate::Outcome;
use std::collections::BTreeMap;

/// Something worth counting in an output.
#[derive(Clone, Copy, Debug, PartialEq, Eq, PartialOrd, Ord)]
pub enum Feature {
    /// A label: `in`, `out`, `log` or `tau`.
    Label(&'static str),
    /// A label `in`, `out` or `log` with a name from outside.
    Outside(&'static str),
    /// A load refusal's number.
    Load(u32),
    /// A step refusal's number.
    Refusal(u32),
    /// A line fault.
    Line,
    /// Tables that load.
    Loaded,
}

/// Every feature that a set of inputs should reach.
pub fn all_features() -> Vec<Feature> {
    let mut all: Vec<Feature> = ["in", "out", "log", "tau"].map(Feature::Label).to_vec();
    all.extend(["in", "out", "log"].map(Feature::Outside));
    all.extend((1..=7).map(Feature::Load));
    all.extend((10..=17).map(Feature::Refusal));
    all.extend([Feature::Line, Feature::Loaded]);
    all
}

/// The features of an outcome, each as often as it occurs.
pub fn features(outcome: &Outcome) -> Vec<Feature> {
    match outcome {
        Outcome::Line(_) => vec![Feature::Line],
        Outcome::Refused(refusal) => vec![Feature::Load(refusal.number)],
        Outcome::Ran(answers) => {
            let mut found = vec![Feature::Loaded];
            found.extend(answers.iter().flat_map(of_answer));
            found
        }
    }
}

/// The features of an answer.
fn of_answer(answer: &Answer) -> Vec<Feature> {
    let (label, value) = match &answer.outcome {
        Ok(Label::In(value)) => ("in", value),
        Ok(Label::Out(value)) => ("out", value),
        Ok(Label::Log(value)) => ("log", value),
        Ok(Label::Silent) => return vec![Feature::Label("tau")],
        Err(refusal) => return vec![Feature::Refusal(refusal.number())],
    };
    let mut found = vec![Feature::Label(label)];
    if value.words().into_iter().any(is_outside) {
        found.push(Feature::Outside(label));
    }
    found
}

/// Counts of features.
#[derive(Clone, Debug, Default)]
pub struct Tally {
    counts: BTreeMap<Feature, usize>,
}

impl Tally {
    /// Counts an outcome's features; true if one of them is new.
    pub fn add(&mut self, outcome: &Outcome) -> bool {
        let mut new = false;
        for feature in features(outcome) {
            let count = self.counts.entry(feature).or_insert(0);
            new |= *count == 0;
            *count += 1;
        }
        new
    }

    /// How often a feature came up.
    pub fn count(&self, feature: Feature) -> usize {
        self.counts.get(&feature).copied().unwrap_or(0)
    }

    /// The features that never came up.
    pub fn missing(&self) -> Vec<Feature> {
        let mut all = all_features();
        all.retain(|feature| self.count(*feature) == 0);
        all
    }

    /// A line for each feature.
    pub fn print(&self) -> String {
        let line = |feature: Feature| {
            let name = match feature {
                Feature::Label(label) => format!("label {label}"),
                Feature::Outside(label) => format!("label {label} with a name from outside"),
                Feature::Load(number) => format!("load {number}"),
                Feature::Refusal(number) => format!("refusal {number}"),
                Feature::Line => String::from("line fault"),
                Feature::Loaded => String::from("loaded"),
            };
            format!("{name}: {}\n", self.count(feature))
        };
        all_features().into_iter().map(line).collect()
    }
}
