//! The rule desk in plain Rust, written from the specification (01-scope.md) alone, apart from the
//! proved library, which is compared with it. Numbers and places are the specification's.
//!
//! [`analyse`], [`write()`] and [`check`] are the three calls over lent buffers, [`listing`] is the
//! text of the listing program. Whoever asks more than once about a file goes through [`Accepted`]
//! and [`Solved`].

#![forbid(unsafe_code)]

mod automaton;
mod cells;
mod file;
mod listing;
mod model;
mod sheet;

pub use automaton::{Automaton, MOST_STATES};
pub use cells::{cell, cells, row};
pub use file::{
    field, read, Atom, Clause, Condition, Named, Production, Query, Rules, Term, MOST, MOST_BYTES,
    MOST_CONTENT,
};
pub use listing::listing;

/// A refusal of a file or a sheet: its number and its place.
#[derive(Clone, Copy, Debug, PartialEq, Eq)]
pub struct Refusal {
    /// The number, 1 to 14.
    pub number: usize,
    /// The place, counted as the number has it.
    pub place: usize,
}

/// What a call hands back besides the buffers; a count that a call does not hand back is 0.
#[derive(Clone, Copy, Debug, Default, PartialEq, Eq)]
pub struct Answer {
    /// The number, 0 to 14.
    pub number: usize,
    /// The place, counted as the number has it.
    pub place: usize,
    /// How many states the file has.
    pub states: usize,
    /// How many atoms the model has.
    pub atoms: usize,
    /// The round count.
    pub rounds: usize,
    /// How many bytes the written sheet has.
    pub bytes: usize,
}

impl From<Refusal> for Answer {
    fn from(Refusal { number, place }: Refusal) -> Self {
        Answer {
            number,
            place,
            ..Answer::default()
        }
    }
}

/// The four buffers that an analysis lends.
pub struct Buffers<'a> {
    /// A place for each state.
    pub states: &'a mut [u16],
    /// A byte for each table cell, symbol after symbol.
    pub tables: &'a mut [u8],
    /// A byte for each domain atom, predicate after predicate.
    pub marks: &'a mut [u8],
    /// A byte for each query.
    pub verdicts: &'a mut [u8],
}

/// How long the buffers of a file have to be.
#[derive(Clone, Copy, Debug, Default, PartialEq, Eq)]
pub struct Needs {
    /// The states.
    pub states: usize,
    /// The table cells.
    pub tables: usize,
    /// The domain atoms.
    pub marks: usize,
    /// The queries.
    pub verdicts: usize,
}

/// A file that none of 1 to 8 fits, with its states and tables.
#[derive(Clone, Debug)]
pub struct Accepted {
    /// What the file declares.
    pub rules: Rules,
    /// Its states and tables.
    pub automaton: Automaton,
    /// Where each predicate's stretch begins among the marks, and where the last one ends.
    starts: Vec<usize>,
}

/// An accepted file with its model and verdicts.
#[derive(Clone, Debug)]
pub struct Solved {
    /// The file.
    pub accepted: Accepted,
    /// A byte for each domain atom, 1 if it is in the model.
    pub model: Vec<u8>,
    /// The round count.
    pub rounds: usize,
    /// A byte for each query, 1 if it is OPEN.
    pub verdicts: Vec<u8>,
}

/// Analyses a file into the lent buffers.
pub fn analyse(file: &[u8], buffers: Buffers) -> Answer {
    match Accepted::of(file) {
        Ok(accepted) => accepted.solve().analyse(buffers),
        Err(refusal) => refusal.into(),
    }
}

/// Analyses a file into the lent buffers and writes its sheet.
pub fn write(file: &[u8], buffers: Buffers, sheet: &mut [u8]) -> Answer {
    match Accepted::of(file) {
        Ok(accepted) => accepted.solve().write(buffers, sheet),
        Err(refusal) => refusal.into(),
    }
}

/// Checks a sheet for a file.
pub fn check(file: &[u8], sheet: &[u8], tables: &mut [u8], marks: &mut [u8]) -> Answer {
    match Accepted::of(file) {
        Ok(accepted) => accepted.check(sheet, tables, marks),
        Err(refusal) => refusal.into(),
    }
}

/// The answer when a lent buffer is too short.
const SHORT: Refusal = Refusal {
    number: 9,
    place: 0,
};

/// The answer when the buffer for the written sheet is too short.
const SHORT_SHEET: Refusal = Refusal {
    number: 14,
    place: 0,
};

impl Accepted {
    /// Reads a file and builds its states and tables: refusals 1 to 8.
    pub fn of(file: &[u8]) -> Result<Accepted, Refusal> {
        let rules = read(file)?;
        let automaton = Automaton::of(&rules).ok_or(Refusal {
            number: 8,
            place: rules.fields,
        })?;
        let mut starts = vec![0];
        for (number, predicate) in rules.predicates.iter().enumerate() {
            starts.push(starts[number] + cells(automaton.states.len(), predicate.arity));
        }
        Ok(Accepted {
            rules,
            automaton,
            starts,
        })
    }

    /// How long the file's buffers have to be.
    pub fn needs(&self) -> Needs {
        Needs {
            states: self.automaton.states.len(),
            tables: self.automaton.tables.iter().map(Vec::len).sum(),
            marks: self.starts[self.rules.predicates.len()],
            verdicts: self.rules.queries.len(),
        }
    }

    /// Works out the model and the verdicts.
    pub fn solve(self) -> Solved {
        let (model, rounds) = self.model();
        let verdicts = (self.rules.queries.iter())
            .map(|query| u8::from(self.open(query, &model)))
            .collect();
        Solved {
            accepted: self,
            model,
            rounds,
            verdicts,
        }
    }

    /// Checks a sheet: 9, then 10 to 13.
    pub fn check(&self, sheet: &[u8], tables: &mut [u8], marks: &mut [u8]) -> Answer {
        let needs = self.needs();
        if tables.len() < needs.tables || marks.len() < needs.marks {
            return SHORT.into();
        }
        tables[..needs.tables].copy_from_slice(&self.automaton.tables.concat());
        marks[..needs.marks].fill(0);
        match self.pass(sheet) {
            Ok(()) => Answer::default(),
            Err(refusal) => refusal.into(),
        }
    }
}

impl Solved {
    /// Fills the buffers, or hands back 9.
    pub fn analyse(&self, buffers: Buffers) -> Answer {
        let needs = self.accepted.needs();
        if buffers.states.len() < needs.states
            || buffers.tables.len() < needs.tables
            || buffers.marks.len() < needs.marks
            || buffers.verdicts.len() < needs.verdicts
        {
            return SHORT.into();
        }
        let automaton = &self.accepted.automaton;
        buffers.states[..needs.states].copy_from_slice(&automaton.states);
        buffers.tables[..needs.tables].copy_from_slice(&automaton.tables.concat());
        buffers.marks[..needs.marks].copy_from_slice(&self.model);
        buffers.verdicts[..needs.verdicts].copy_from_slice(&self.verdicts);
        Answer {
            states: needs.states,
            atoms: self.atoms(),
            rounds: self.rounds,
            ..Answer::default()
        }
    }

    /// Fills the buffers and writes the sheet, or hands back 9 or 14.
    pub fn write(&self, buffers: Buffers, sheet: &mut [u8]) -> Answer {
        let answer = self.analyse(buffers);
        if answer.number != 0 {
            return answer;
        }
        let written = self.sheet();
        if sheet.len() < written.len() {
            return SHORT_SHEET.into();
        }
        sheet[..written.len()].copy_from_slice(&written);
        Answer {
            bytes: written.len(),
            ..answer
        }
    }

    /// How many atoms the model has.
    pub fn atoms(&self) -> usize {
        self.model.iter().filter(|&&mark| mark == 1).count()
    }
}
