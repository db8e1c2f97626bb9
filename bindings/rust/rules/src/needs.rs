//! How long a file's buffers have to be, from its declarations.

const SYMBOL: u8 = 1;
const PREDICATE: u8 = 4;
const QUERY: u8 = 6;

/// How many table cells an accepted file of so many states has.
pub fn table_cells(file: &[u8], states: usize) -> usize {
    cells(file, SYMBOL, states)
}

/// How many domain atoms an accepted file of so many states has.
pub fn domain_atoms(file: &[u8], states: usize) -> usize {
    cells(file, PREDICATE, states)
}

/// How many queries an accepted file has.
pub(crate) fn queries(file: &[u8]) -> usize {
    contents(file, QUERY).count()
}

/// The cells of all declarations of a kind; a declaration begins with its arity.
fn cells(file: &[u8], kind: u8, states: usize) -> usize {
    contents(file, kind)
        .filter_map(|content| content.first())
        .map(|&arity| states.saturating_pow(arity.into()))
        .fold(0, usize::saturating_add)
}

/// The contents of a file's fields of one kind, up to a field that is cut.
fn contents(file: &[u8], kind: u8) -> impl Iterator<Item = &[u8]> {
    let mut rest = file;
    let fields = std::iter::from_fn(move || {
        let (&[tag, high, low], after) = rest.split_first_chunk()?;
        let (content, after) = after.split_at_checked(u16::from_be_bytes([high, low]).into())?;
        rest = after;
        Some((tag, content))
    });
    fields.filter_map(move |(tag, content)| (tag == kind).then_some(content))
}
