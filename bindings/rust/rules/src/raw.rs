//! The three exported functions, each as one safe call that hands back all that the library hands
//! back. The rest of the crate stands on these.

/// The four buffers that an analysis lends.
pub struct Buffers<'a> {
    /// A place for each state.
    pub states: &'a mut [u16],
    /// A byte for each table cell.
    pub tables: &'a mut [u8],
    /// A byte for each domain atom.
    pub marks: &'a mut [u8],
    /// A byte for each query.
    pub verdicts: &'a mut [u8],
}

/// What a call hands back besides the buffers; a count that a call does not hand back is 0.
#[derive(Clone, Copy, Debug, PartialEq, Eq)]
pub struct Answer {
    /// The number, 0 to 14.
    pub number: usize,
    /// The place, counted as the number has it.
    pub place: usize,
    /// How many states the file has.
    pub states: usize,
    /// How many atoms the model has.
    pub atoms: usize,
    /// The round count.
    pub rounds: usize,
    /// How many bytes the written sheet has.
    pub bytes: usize,
}

/// Stands where the library is to write a number; it is none that it would write.
const UNWRITTEN: usize = usize::MAX;

extern "C" {
    fn rules_analyse(
        file: *const u8,
        file_len: usize,
        states: *mut u16,
        states_len: usize,
        tables: *mut u8,
        tables_len: usize,
        marks: *mut u8,
        marks_len: usize,
        verdicts: *mut u8,
        verdicts_len: usize,
        place: *mut usize,
        state_count: *mut usize,
        atom_count: *mut usize,
        round_count: *mut usize,
    ) -> usize;

    fn rules_write(
        file: *const u8,
        file_len: usize,
        states: *mut u16,
        states_len: usize,
        tables: *mut u8,
        tables_len: usize,
        marks: *mut u8,
        marks_len: usize,
        verdicts: *mut u8,
        verdicts_len: usize,
        sheet: *mut u8,
        sheet_len: usize,
        place: *mut usize,
        state_count: *mut usize,
        atom_count: *mut usize,
        round_count: *mut usize,
        byte_count: *mut usize,
    ) -> usize;

    fn rules_check(
        file: *const u8,
        file_len: usize,
        sheet: *const u8,
        sheet_len: usize,
        tables: *mut u8,
        tables_len: usize,
        marks: *mut u8,
        marks_len: usize,
        place: *mut usize,
    ) -> usize;
}

/// Analyses a file into the lent buffers.
pub fn analyse(file: &[u8], buffers: Buffers) -> Answer {
    let Buffers {
        states,
        tables,
        marks,
        verdicts,
    } = buffers;
    let mut answer = Answer {
        number: UNWRITTEN,
        place: UNWRITTEN,
        states: UNWRITTEN,
        atoms: UNWRITTEN,
        rounds: UNWRITTEN,
        bytes: 0,
    };
    // SAFETY: each pointer and length are those of a slice, a slice's pointer is never null, and as
    // borrows no two overlap.
    answer.number = unsafe {
        rules_analyse(
            file.as_ptr(),
            file.len(),
            states.as_mut_ptr(),
            states.len(),
            tables.as_mut_ptr(),
            tables.len(),
            marks.as_mut_ptr(),
            marks.len(),
            verdicts.as_mut_ptr(),
            verdicts.len(),
            &mut answer.place,
            &mut answer.states,
            &mut answer.atoms,
            &mut answer.rounds,
        )
    };
    answer
}

/// Analyses a file into the lent buffers and writes its sheet.
pub fn write(file: &[u8], buffers: Buffers, sheet: &mut [u8]) -> Answer {
    let Buffers {
        states,
        tables,
        marks,
        verdicts,
    } = buffers;
    let mut answer = Answer {
        number: UNWRITTEN,
        place: UNWRITTEN,
        states: UNWRITTEN,
        atoms: UNWRITTEN,
        rounds: UNWRITTEN,
        bytes: UNWRITTEN,
    };
    // SAFETY: as in `analyse`.
    answer.number = unsafe {
        rules_write(
            file.as_ptr(),
            file.len(),
            states.as_mut_ptr(),
            states.len(),
            tables.as_mut_ptr(),
            tables.len(),
            marks.as_mut_ptr(),
            marks.len(),
            verdicts.as_mut_ptr(),
            verdicts.len(),
            sheet.as_mut_ptr(),
            sheet.len(),
            &mut answer.place,
            &mut answer.states,
            &mut answer.atoms,
            &mut answer.rounds,
            &mut answer.bytes,
        )
    };
    answer
}

/// Checks a sheet for a file.
pub fn check(file: &[u8], sheet: &[u8], tables: &mut [u8], marks: &mut [u8]) -> Answer {
    let mut answer = Answer {
        number: UNWRITTEN,
        place: UNWRITTEN,
        states: 0,
        atoms: 0,
        rounds: 0,
        bytes: 0,
    };
    // SAFETY: as in `analyse`.
    answer.number = unsafe {
        rules_check(
            file.as_ptr(),
            file.len(),
            sheet.as_ptr(),
            sheet.len(),
            tables.as_mut_ptr(),
            tables.len(),
            marks.as_mut_ptr(),
            marks.len(),
            &mut answer.place,
        )
    };
    answer
}
