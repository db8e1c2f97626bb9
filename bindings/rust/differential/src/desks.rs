//! The two desks that are compared: the subject, which is the library if it is there, and the
//! reference.

use crate::lent::Lent;
use reference::{Accepted, Answer, Buffers, Clause, Refusal, Solved, Term};

/// The three calls.
#[derive(Clone, Copy, Debug, PartialEq, Eq)]
pub enum Call {
    /// Analyse.
    Analyse,
    /// Write a sheet.
    Write,
    /// Check a sheet.
    Check,
}

/// The calls in the order in which they are tallied.
pub const CALLS: [Call; 3] = [Call::Analyse, Call::Write, Call::Check];

/// What the subject is.
#[cfg(feature = "library")]
pub const SUBJECT: &str = "the library";
/// What the subject is.
#[cfg(not(feature = "library"))]
pub const SUBJECT: &str = "the reference itself";

/// The subject's answer.
#[cfg(feature = "library")]
pub fn subject(call: Call, file: &[u8], sheet: &[u8], lent: &mut Lent) -> Answer {
    use rules::raw;
    let (tables, marks) = (lent.tables.part(), lent.marks.part());
    let answer = if call == Call::Check {
        raw::check(file, sheet, tables, marks)
    } else {
        let buffers = raw::Buffers {
            states: lent.states.part(),
            tables,
            marks,
            verdicts: lent.verdicts.part(),
        };
        match call {
            Call::Write => raw::write(file, buffers, lent.sheet.part()),
            _ => raw::analyse(file, buffers),
        }
    };
    Answer {
        number: answer.number,
        place: answer.place,
        states: answer.states,
        atoms: answer.atoms,
        rounds: answer.rounds,
        bytes: answer.bytes,
    }
}

/// The subject's answer.
#[cfg(not(feature = "library"))]
pub fn subject(call: Call, file: &[u8], sheet: &[u8], lent: &mut Lent) -> Answer {
    let (tables, marks) = (lent.tables.part(), lent.marks.part());
    if call == Call::Check {
        return reference::check(file, sheet, tables, marks);
    }
    let buffers = Buffers {
        states: lent.states.part(),
        tables,
        marks,
        verdicts: lent.verdicts.part(),
    };
    match call {
        Call::Write => reference::write(file, buffers, lent.sheet.part()),
        _ => reference::analyse(file, buffers),
    }
}

/// A fault planted in the reference.
#[derive(Clone, Copy, Debug, PartialEq, Eq)]
pub enum Plant {
    /// The second place of a clause's variable has a state of its own.
    TwoStates,
    /// The set with no type is left out of the states.
    NoEmptySet,
    /// One round too many is counted after the second.
    Rounds,
}

impl Plant {
    /// The fault of this name.
    pub fn named(name: &str) -> Option<Plant> {
        match name {
            "two-states" => Some(Plant::TwoStates),
            "no-empty-set" => Some(Plant::NoEmptySet),
            "rounds" => Some(Plant::Rounds),
            _ => None,
        }
    }
}

/// The reference for one file, with the planted fault if there is one.
pub struct Reference {
    /// What it makes of the file.
    pub outcome: Result<Solved, Refusal>,
    plant: Option<Plant>,
}

impl Reference {
    /// Reads and solves a file.
    pub fn new(file: &[u8], plant: Option<Plant>) -> Self {
        let outcome = Accepted::of(file).map(|mut accepted| {
            if plant == Some(Plant::TwoStates) {
                accepted.rules.clauses.iter_mut().for_each(part_places);
            }
            accepted.solve()
        });
        Reference { outcome, plant }
    }

    /// The reference's answer.
    pub fn answer(&self, call: Call, sheet: &[u8], lent: &mut Lent) -> Answer {
        let solved = match &self.outcome {
            Ok(solved) => solved,
            Err(refusal) => return (*refusal).into(),
        };
        let (tables, marks) = (lent.tables.part(), lent.marks.part());
        if call == Call::Check {
            return solved.accepted.check(sheet, tables, marks);
        }
        let buffers = Buffers {
            states: lent.states.part(),
            tables,
            marks,
            verdicts: lent.verdicts.part(),
        };
        let mut answer = match call {
            Call::Write => solved.write(buffers, lent.sheet.part()),
            _ => solved.analyse(buffers),
        };
        match self.plant {
            Some(Plant::NoEmptySet) if answer.states > 1 && lent.states.part()[0] == 0 => {
                answer.states -= 1;
                lent.states.part().copy_within(1.., 0);
            }
            Some(Plant::Rounds) if answer.rounds > 2 => answer.rounds += 1,
            _ => {}
        }
        answer
    }
}

/// Gives the first place that repeats a variable of the clause a variable of its own.
fn part_places(clause: &mut Clause) {
    let mut seen = Vec::new();
    let atoms = std::iter::once(&mut clause.head).chain(&mut clause.body);
    let mut terms = atoms.flat_map(|atom| &mut atom.terms);
    if terms.any(|term| part_place(term, &mut seen, clause.variables)) {
        clause.variables += 1;
    }
}

/// Puts the fresh variable at the first place of the term that holds a seen one, if there is any.
fn part_place(term: &mut Term, seen: &mut Vec<usize>, fresh: usize) -> bool {
    match term {
        Term::Variable(variable) if seen.contains(variable) => {
            *variable = fresh;
            true
        }
        Term::Variable(variable) => {
            seen.push(*variable);
            false
        }
        Term::Apply(_, arguments) => {
            let mut arguments = arguments.iter_mut();
            arguments.any(|argument| part_place(argument, seen, fresh))
        }
    }
}
