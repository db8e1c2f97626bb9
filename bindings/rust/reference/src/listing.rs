//! The text of the listing program.

use crate::{cells, row, Accepted, Refusal, Solved};

/// The listing of a file, or the line of its refusal.
pub fn listing(file: &[u8]) -> String {
    match Accepted::of(file) {
        Ok(accepted) => accepted.solve().listing(),
        Err(Refusal { number, place }) => format!("refused {number} at {place}\n"),
    }
}

impl Solved {
    /// The listing of an accepted file.
    pub fn listing(&self) -> String {
        let rules = &self.accepted.rules;
        let states = &self.accepted.automaton.states;
        let mut lines = vec![format!("states {}", states.len())];
        for (number, &set) in states.iter().enumerate() {
            let names: Vec<_> = (rules.types.iter().enumerate())
                .filter(|(of, _)| set >> of & 1 == 1)
                .map(|(_, name)| text(name))
                .collect();
            let names = match names.is_empty() {
                true => "-".to_string(),
                false => names.join(" "),
            };
            lines.push(format!("{number} {names}"));
        }
        lines.push(format!("model {} rounds {}", self.atoms(), self.rounds));
        let mut marks = self.model.iter();
        for predicate in &rules.predicates {
            for cell in 0..cells(states.len(), predicate.arity) {
                if marks.next() == Some(&1) {
                    let row = row(states.len(), predicate.arity, cell);
                    let row = row.iter().map(|state| format!(" {state}"));
                    lines.push(text(&predicate.name) + &row.collect::<String>());
                }
            }
        }
        lines.push(format!("queries {}", rules.queries.len()));
        for (number, &verdict) in self.verdicts.iter().enumerate() {
            let verdict = ["CLEAR", "OPEN"][usize::from(verdict)];
            lines.push(format!("{number} {verdict}"));
        }
        lines.iter().map(|line| format!("{line}\n")).collect()
    }
}

fn text(name: &[u8]) -> String {
    name.iter().copied().map(char::from).collect()
}
