//! Safe calls of the proved analyser of rule files: [`analyse`] a file, write its certificate
//! ([`write_sheet`]), check anybody's certificate ([`check_sheet`]). The `_into` forms take the
//! caller's buffers, and then nothing is allocated.
//!
//! Give a call 256 kB of stack: what it takes is less, but was measured and is not proved.

mod needs;
pub mod raw;

pub use needs::{domain_atoms, table_cells};
pub use raw::Buffers;

use raw::Answer;
use std::fmt;

/// The most states of an accepted file.
pub const MOST_STATES: usize = 16;
/// The most table cells of an accepted file: 24 symbols over two of 16 states.
pub const MOST_TABLE_CELLS: usize = 6_144;
/// The most domain atoms of an accepted file: 16 predicates over three of 16 states.
pub const MOST_DOMAIN_ATOMS: usize = 65_536;
/// The most queries of an accepted file.
pub const MOST_QUERIES: usize = 32;
/// The most bytes of a written sheet: five for a state, seven for an atom of three states.
pub const MOST_SHEET_BYTES: usize = 5 * MOST_STATES + 7 * MOST_DOMAIN_ATOMS;

/// Why a file or a sheet was refused, or a buffer too short.
#[derive(Clone, Copy, Debug, PartialEq, Eq)]
pub struct Error {
    /// The specification's number, 1 to 14.
    pub number: u8,
    /// The place, counted as the number has it: a field, the field count, a state, a clause.
    pub place: usize,
}

impl fmt::Display for Error {
    fn fmt(&self, formatter: &mut fmt::Formatter) -> fmt::Result {
        let text = usize::from(self.number).checked_sub(1);
        match text.and_then(|number| TEXTS.get(number)) {
            Some(text) => formatter.write_str(&text.replace('#', &self.place.to_string())),
            None => write!(formatter, "unknown number {}", self.number),
        }
    }
}

/// What the numbers from 1 on mean; `#` stands for the place.
const TEXTS: [&str; 14] = [
    "the file has more than 32,768 bytes",
    "field # is cut",
    "field # has a wrong tag, or one below the tag before",
    "the content of field # is not laid out as its kind is",
    "the name in field # is already used in its kind",
    "field # is one more than the most of its kind",
    "none of the # fields is a symbol of arity 0",
    "the file of # fields has more than 16 states",
    "a buffer is shorter than needed",
    "field # of the sheet is not laid out as a state or an atom",
    "the sheet's states differ from the file's at #",
    "field # of the sheet has an unknown state, or an atom for the second time",
    "the sheet is not closed under clause #",
    "the buffer for the sheet is shorter than needed",
];

impl std::error::Error for Error {}

/// The answer to a query.
#[derive(Clone, Copy, Debug, PartialEq, Eq)]
pub enum Verdict {
    /// No ground instance is derivable, at any height.
    Clear,
    /// Some giving of states puts the query in the model; this claims no derivable instance.
    Open,
}

/// What an analysis found.
#[derive(Clone, Debug, PartialEq, Eq)]
pub struct Analysis {
    /// The states, rising; type t is bit t.
    pub states: Vec<u16>,
    /// For each symbol, one after the other, the state over each row of argument states.
    pub tables: Vec<u8>,
    /// For each predicate, one after the other, 1 for each row of states that is in the model, else
    /// 0.
    pub marks: Vec<u8>,
    /// The verdict of each query.
    pub verdicts: Vec<Verdict>,
    /// How many atoms the model has.
    pub atoms: usize,
    /// The round count.
    pub rounds: usize,
}

/// The counts of an analysis into the caller's buffers.
#[derive(Clone, Copy, Debug, PartialEq, Eq)]
pub struct Counts {
    /// How many states the file has.
    pub states: usize,
    /// How many atoms the model has.
    pub atoms: usize,
    /// The round count.
    pub rounds: usize,
}

/// Analyses a file.
pub fn analyse(file: &[u8]) -> Result<Analysis, Error> {
    let mut largest = Largest::new();
    let counts = analyse_into(file, largest.lend())?;
    Ok(largest.keep(file, counts))
}

/// Analyses a file into the caller's buffers. They are untouched with an error; bytes past the
/// needed ones keep their values.
pub fn analyse_into(file: &[u8], buffers: Buffers) -> Result<Counts, Error> {
    counts(raw::analyse(file, buffers))
}

/// Analyses a file and writes its sheet.
pub fn write_sheet(file: &[u8]) -> Result<(Analysis, Vec<u8>), Error> {
    let mut largest = Largest::new();
    let mut sheet = vec![0; MOST_SHEET_BYTES];
    let (counts, bytes) = write_sheet_into(file, largest.lend(), &mut sheet)?;
    sheet.truncate(bytes);
    Ok((largest.keep(file, counts), sheet))
}

/// Analyses a file and writes its sheet, both into the caller's buffers, and counts the sheet's
/// bytes too. With error 14 the sheet is untouched and the other buffers are filled; with any
/// other, all are untouched.
pub fn write_sheet_into(
    file: &[u8],
    buffers: Buffers,
    sheet: &mut [u8],
) -> Result<(Counts, usize), Error> {
    let answer = raw::write(file, buffers, sheet);
    Ok((counts(answer)?, answer.bytes))
}

/// Checks a sheet for a file.
pub fn check_sheet(file: &[u8], sheet: &[u8]) -> Result<(), Error> {
    let (mut tables, mut marks) = (vec![0; MOST_TABLE_CELLS], vec![0; MOST_DOMAIN_ATOMS]);
    check_sheet_into(file, sheet, &mut tables, &mut marks)
}

/// Checks a sheet for a file in the caller's buffers. After success and errors 10 to 13 the tables
/// are the file's and the needed marks are 0; with any other error both are untouched.
pub fn check_sheet_into(
    file: &[u8],
    sheet: &[u8],
    tables: &mut [u8],
    marks: &mut [u8],
) -> Result<(), Error> {
    counts(raw::check(file, sheet, tables, marks)).map(|_| ())
}

fn counts(answer: Answer) -> Result<Counts, Error> {
    match answer.number {
        0 => Ok(Counts {
            states: answer.states,
            atoms: answer.atoms,
            rounds: answer.rounds,
        }),
        number => Err(Error {
            number: number as u8,
            place: answer.place,
        }),
    }
}

/// Buffers that are long enough for every file.
struct Largest {
    states: Vec<u16>,
    tables: Vec<u8>,
    marks: Vec<u8>,
    verdicts: Vec<u8>,
}

impl Largest {
    fn new() -> Self {
        Largest {
            states: vec![0; MOST_STATES],
            tables: vec![0; MOST_TABLE_CELLS],
            marks: vec![0; MOST_DOMAIN_ATOMS],
            verdicts: vec![0; MOST_QUERIES],
        }
    }

    fn lend(&mut self) -> Buffers<'_> {
        Buffers {
            states: &mut self.states,
            tables: &mut self.tables,
            marks: &mut self.marks,
            verdicts: &mut self.verdicts,
        }
    }

    /// Keeps what the file needs.
    fn keep(mut self, file: &[u8], counts: Counts) -> Analysis {
        self.states.truncate(counts.states);
        self.tables.truncate(table_cells(file, counts.states));
        self.marks.truncate(domain_atoms(file, counts.states));
        self.verdicts.truncate(needs::queries(file));
        let verdict = |&byte: &u8| match byte {
            0 => Verdict::Clear,
            _ => Verdict::Open,
        };
        Analysis {
            states: self.states,
            tables: self.tables,
            marks: self.marks,
            verdicts: self.verdicts.iter().map(verdict).collect(),
            atoms: counts.atoms,
            rounds: counts.rounds,
        }
    }
}
