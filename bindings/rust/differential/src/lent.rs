//! The buffers that a call is lent, with bytes around them that it must leave alone.

use crate::fields;
use crate::random::Random;
use reference::Needs;

/// So many places before and after a buffer belong to nobody.
const GUARD: usize = 8;

/// A buffer between two stretches that are not lent.
#[derive(Clone, PartialEq)]
pub struct Guarded<T> {
    whole: Vec<T>,
}

impl<T> Guarded<T> {
    fn new(length: usize, fill: impl FnMut() -> T) -> Self {
        let whole = std::iter::repeat_with(fill)
            .take(length + 2 * GUARD)
            .collect();
        Guarded { whole }
    }

    /// The part that is lent.
    pub fn part(&mut self) -> &mut [T] {
        let end = self.whole.len() - GUARD;
        &mut self.whole[GUARD..end]
    }
}

/// All buffers; a call is lent those that it takes.
#[derive(Clone, PartialEq)]
pub struct Lent {
    /// The states.
    pub states: Guarded<u16>,
    /// The table cells.
    pub tables: Guarded<u8>,
    /// The marks.
    pub marks: Guarded<u8>,
    /// The verdicts.
    pub verdicts: Guarded<u8>,
    /// The sheet to be written.
    pub sheet: Guarded<u8>,
}

impl Lent {
    /// Draws buffers for a call whose answer needs these lengths: as long as needed, longer, one of
    /// them one short, or of any length; filled with anything. `used` says which of the four a
    /// short one is drawn from.
    pub fn draw(random: &mut Random, needs: Needs, used: &[usize], sheet: usize) -> Lent {
        let mut lengths = [needs.states, needs.tables, needs.marks, needs.verdicts];
        match random.weighted(&[(45, 0), (25, 1), (22, 2), (8, 3)]) {
            0 => {}
            1 => lengths = lengths.map(|length| length + random.below(20)),
            2 => {
                let short = random.pick(used);
                if random.chance(30) {
                    lengths = lengths.map(|length| length + random.below(3));
                }
                let needed = [needs.states, needs.tables, needs.marks, needs.verdicts][short];
                lengths[short] = needed.saturating_sub(1);
            }
            _ => lengths = lengths.map(|length| random.within(0..=length + 20)),
        }
        let sheet = match random.weighted(&[(45, 0), (20, 1), (25, 2), (10, 3)]) {
            0 => sheet,
            1 => sheet + random.within(1..=20),
            2 => sheet.saturating_sub(1),
            _ => random.below(sheet + 1),
        };
        let [states, tables, marks, verdicts] = lengths;
        Lent {
            states: Guarded::new(states, || random.next() as u16),
            tables: Guarded::new(tables, || random.byte()),
            marks: Guarded::new(marks, || random.byte()),
            verdicts: Guarded::new(verdicts, || random.byte()),
            sheet: Guarded::new(sheet, || random.byte()),
        }
    }

    /// Puts the atoms of a written sheet into one order; the specification leaves it open. The
    /// sheet has so many states and bytes.
    pub fn order_atoms(&mut self, states: usize, bytes: usize) {
        let Some(atoms) = self.sheet.part().get_mut(5 * states..bytes) else {
            return;
        };
        if let Some(mut fields) = fields::fields(atoms) {
            fields.sort();
            atoms.copy_from_slice(&fields::bytes(&fields));
        }
    }

    /// The names of the buffers that differ.
    pub fn differing(&self, other: &Lent) -> Vec<&'static str> {
        [
            ("states", self.states != other.states),
            ("tables", self.tables != other.tables),
            ("marks", self.marks != other.marks),
            ("verdicts", self.verdicts != other.verdicts),
            ("sheet", self.sheet != other.sheet),
        ]
        .into_iter()
        .filter_map(|(name, differs)| differs.then_some(name))
        .collect()
    }
}
