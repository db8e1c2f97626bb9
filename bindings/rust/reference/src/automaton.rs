//! States and tables: refusal 8.

use crate::{cell, cells, row, Rules};

/// The most states of an accepted file.
pub const MOST_STATES: usize = 16;

/// The states and tables of a file.
#[derive(Clone, Debug)]
pub struct Automaton {
    /// The sets of types that ground terms have, type t being bit t, rising.
    pub states: Vec<u16>,
    /// For each symbol the state over each row of argument states, by cell.
    pub tables: Vec<Vec<u8>>,
}

impl Automaton {
    /// Builds the states from the constants upwards; `None` if there are more than [`MOST_STATES`].
    pub fn of(rules: &Rules) -> Option<Automaton> {
        let mut states: Vec<u16> = Vec::new();
        loop {
            let mut grown = states.clone();
            for symbol in 0..rules.symbols.len() {
                for set in rules.sets(symbol, &states) {
                    if let Err(place) = grown.binary_search(&set) {
                        grown.insert(place, set);
                    }
                    if grown.len() > MOST_STATES {
                        return None;
                    }
                }
            }
            if grown == states {
                break;
            }
            states = grown;
        }
        let number = |set| states.binary_search(&set).expect("the states are closed") as u8;
        let tables = (0..rules.symbols.len())
            .map(|symbol| rules.sets(symbol, &states).map(number).collect())
            .collect();
        Some(Automaton { states, tables })
    }

    /// The state of a symbol over its arguments' states.
    pub fn over(&self, symbol: usize, arguments: impl IntoIterator<Item = usize>) -> usize {
        usize::from(self.tables[symbol][cell(self.states.len(), arguments)])
    }
}

impl Rules {
    /// The set of a symbol over each row of these states, by cell.
    fn sets<'a>(&'a self, symbol: usize, states: &'a [u16]) -> impl Iterator<Item = u16> + 'a {
        let (m, arity) = (states.len(), self.symbols[symbol].arity);
        (0..cells(m, arity)).map(move |cell| {
            let row = row(m, arity, cell);
            (self.productions.iter())
                .filter(|production| production.symbol == symbol)
                .filter(|production| {
                    (production.arguments.iter().zip(&row))
                        .all(|(of, &state)| states[state] >> of & 1 == 1)
                })
                .fold(0, |set, production| set | 1 << production.given)
        })
    }
}
