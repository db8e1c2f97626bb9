//! How often each kind of answer came up.

use crate::desks::{Call, CALLS};
use crate::fields;
use reference::{Answer, Solved, MOST, MOST_CONTENT, MOST_STATES};
use std::fmt;

/// What is counted has to come up so often.
const LEAST: usize = 100;

/// The counts of a run.
#[derive(Default)]
pub struct Tally {
    numbers: [[usize; 15]; 3],
    open: usize,
    clear: usize,
    sixteen: usize,
    rounds: usize,
    empty_set: usize,
    six_variables: usize,
    /// Files with a kind at its most, tags 1 to 6.
    at_most: [usize; 6],
    /// Files with a content of 250 bytes.
    long_content: usize,
    /// Files with all the 26,300 bytes that one can have.
    longest: usize,
}

impl Tally {
    /// Counts a file whose analysis handed back 0.
    pub fn analysed(&mut self, file: &[u8], solved: &Solved) {
        let open = (solved.verdicts.iter())
            .filter(|&&verdict| verdict == 1)
            .count();
        self.open += open;
        self.clear += solved.verdicts.len() - open;
        let states = &solved.accepted.automaton.states;
        let sixteen = states.len() == MOST_STATES;
        self.sixteen += usize::from(sixteen);
        self.rounds += usize::from(solved.rounds > 2);
        self.empty_set += usize::from(states[0] == 0);
        let mut clauses = solved.accepted.rules.clauses.iter();
        let six = clauses.any(|clause| clause.variables == 6);
        self.six_variables += usize::from(sixteen && six);
        let fields = fields::fields(file).expect("an accepted file has whole fields");
        for (tag, (at_most, most)) in (1..).zip(self.at_most.iter_mut().zip(MOST)) {
            let count = fields.iter().filter(|field| field.tag == tag).count();
            *at_most += usize::from(count == most);
        }
        let long = fields
            .iter()
            .any(|field| field.content.len() == MOST_CONTENT);
        self.long_content += usize::from(long);
        self.longest += usize::from(file.len() == 26_300);
    }

    /// Counts an answer.
    pub fn answer(&mut self, call: Call, answer: &Answer) {
        self.numbers[call as usize][answer.number] += 1;
    }

    /// What has to come up, with its count.
    fn due(&self) -> Vec<(String, usize)> {
        let mut due = Vec::new();
        for call in CALLS {
            for (number, &count) in self.numbers[call as usize].iter().enumerate() {
                if possible(call, number) {
                    due.push((format!("{number} from {call:?}"), count));
                }
            }
        }
        due.push(("OPEN".into(), self.open));
        due.push(("CLEAR".into(), self.clear));
        due.push(("16 states".into(), self.sixteen));
        due.push(("more than two rounds".into(), self.rounds));
        due
    }

    /// What came up too seldom.
    pub fn seldom(&self) -> Vec<String> {
        (self.due().into_iter())
            .filter(|&(_, count)| count < LEAST)
            .map(|(name, count)| format!("{name}: {count}, under {LEAST}"))
            .collect()
    }
}

/// Whether a call can hand back a number.
fn possible(call: Call, number: usize) -> bool {
    match call {
        Call::Analyse => number <= 9,
        Call::Write => number <= 9 || number == 14,
        Call::Check => number <= 13,
    }
}

impl fmt::Display for Tally {
    fn fmt(&self, formatter: &mut fmt::Formatter) -> fmt::Result {
        write!(formatter, "number ")?;
        for number in 0..15 {
            write!(formatter, "{number:>6}")?;
        }
        writeln!(formatter)?;
        for call in CALLS {
            write!(formatter, "{:<7}", format!("{call:?}").to_lowercase())?;
            for (number, count) in self.numbers[call as usize].iter().enumerate() {
                match possible(call, number) {
                    true => write!(formatter, "{count:>6}")?,
                    false => write!(formatter, "{:>6}", "-")?,
                }
            }
            writeln!(formatter)?;
        }
        writeln!(
            formatter,
            "OPEN {}, CLEAR {}; files of 16 states {}, of more than two rounds {}",
            self.open, self.clear, self.sixteen, self.rounds
        )?;
        writeln!(
            formatter,
            "besides, files analysed: with the set of no type {}, of 16 states with six variables {}",
            self.empty_set, self.six_variables
        )?;
        write!(
            formatter,
            "with a kind at its most {:?}, with a content of 250 bytes {}, of 26,300 bytes {}",
            self.at_most, self.long_content, self.longest
        )
    }
}
