//! A run of a seed whose steps are all legal, and its labels.

use crate::call::{Claim, List};
use reference::claims::visible_labels;
use reference::generator::generate;
use reference::lines::{read_script, Script};
use reference::load_script;
use reference::steps::Step;
use reference::words::{label_words, step_words, Record};

/// Most runs are cut after so many steps.
const USUAL_STEPS: usize = 70;
/// Seeds of one class of generated inputs are so far apart; the class is the seed's rest by 4.
const APART: u64 = 1_000_000;

/// Tables that load, with steps.
pub struct Base {
    pub script: Script,
    /// The steps as scheduled, refused ones too.
    pub asked: Vec<Step>,
    /// Those that are not refused. A refused one changes nothing, so they are legal by themselves.
    pub steps: Vec<Step>,
    /// Their visible labels.
    pub labels: Vec<Record>,
}

impl Base {
    /// The run of a seed; of most seeds with two labels or more.
    pub fn make(seed: u64) -> Base {
        let least = if seed % 9 == 8 { 0 } else { 2 };
        let most = if seed % 16 == 5 {
            usize::MAX
        } else {
            USUAL_STEPS
        };
        let tries = (0..).map(|again| seed + again * APART);
        let mut bases = tries.filter_map(|seed| Base::of_input(seed, most));
        let found = bases.find(|base| base.labels.len() >= least);
        found.expect("some seed has such a run")
    }

    /// The run of a generated input, if its lines are sound and its tables load.
    fn of_input(seed: u64, most: usize) -> Option<Base> {
        let script = read_script(&generate(seed)).ok()?;
        let mut state = load_script(&script).ok()?;
        let asked: Vec<Step> = script.steps.iter().take(most).cloned().collect();
        let legal = asked.iter().filter(|step| state.step(step).outcome.is_ok());
        let steps: Vec<Step> = legal.cloned().collect();
        let labels = labels_of(&script, &step_words(&steps)).expect("legal steps");
        Some(Base {
            script,
            asked,
            steps,
            labels,
        })
    }

    /// The right claim.
    pub fn claim(&self) -> Claim {
        self.claim_of(&self.steps, &self.labels)
    }

    /// A claim about these tables.
    pub fn claim_of(&self, steps: &[Step], labels: &[Record]) -> Claim {
        self.claim_of_words(step_words(steps), label_words(labels))
    }

    /// A claim about these tables, in words.
    pub fn claim_of_words(&self, steps: Vec<u32>, labels: Vec<u32>) -> Claim {
        claim_about(&self.script, steps, labels)
    }
}

/// A claim about the tables of a script.
pub fn claim_about(script: &Script, steps: Vec<u32>, labels: Vec<u32>) -> Claim {
    let [nodes, pools] = [&script.nodes, &script.pools];
    let parts = [&nodes[0], &pools[0], &nodes[1], &pools[1]];
    Claim {
        wrapper: script.wrapper,
        tables: List::whole(parts.map(|part| &part[..]).concat()),
        lengths: List::whole(parts.map(|part| part.len() as u32).to_vec()),
        steps: List::whole(steps),
        labels: List::whole(labels),
    }
}

/// The visible labels of these steps, if all are legal.
pub fn labels_of(script: &Script, steps: &[u32]) -> Option<Vec<Record>> {
    visible_labels(script.wrapper, script.tables(), steps).ok()
}
