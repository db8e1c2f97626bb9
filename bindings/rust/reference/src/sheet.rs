//! Sheets: writing one, and the check, 10 to 13.

use crate::{cells, field, row, Accepted, Refusal, Solved};

const STATE: u8 = 16;
const ATOM: u8 = 17;

impl Solved {
    /// The sheet: the states, then the model's atoms by rising predicate and cell.
    pub fn sheet(&self) -> Vec<u8> {
        let states = &self.accepted.automaton.states;
        let mut sheet = Vec::new();
        for state in states {
            sheet.extend([STATE, 0, 2]);
            sheet.extend(state.to_be_bytes());
        }
        let mut marks = self.model.iter();
        for (number, predicate) in self.accepted.rules.predicates.iter().enumerate() {
            for cell in 0..cells(states.len(), predicate.arity) {
                if marks.next() == Some(&1) {
                    sheet.extend([ATOM, 0, 1 + predicate.arity as u8, number as u8]);
                    let states = row(states.len(), predicate.arity, cell);
                    sheet.extend(states.into_iter().map(|state| state as u8));
                }
            }
        }
        sheet
    }
}

impl Accepted {
    /// Checks a sheet.
    pub fn pass(&self, sheet: &[u8]) -> Result<(), Refusal> {
        let refuse = |number, place| Err(Refusal { number, place });
        let (states, atoms) = match self.laid_out(sheet) {
            Ok(parts) => parts,
            Err(place) => return refuse(10, place),
        };
        let own = &self.automaton.states;
        if let Some(place) =
            (0..states.len().max(own.len())).find(|&place| states.get(place) != own.get(place))
        {
            return refuse(11, place);
        }
        let mut set = vec![0; self.needs().marks];
        for (number, atom) in atoms.iter().enumerate() {
            let (predicate, row) = (usize::from(atom[0]), &atom[1..]);
            if row.iter().any(|&state| usize::from(state) >= own.len()) {
                return refuse(12, states.len() + number);
            }
            let mark = self.mark(predicate, row.iter().map(|&state| usize::from(state)));
            if set[mark] == 1 {
                return refuse(12, states.len() + number);
            }
            set[mark] = 1;
        }
        match self.unclosed(&set) {
            Some(clause) => refuse(13, clause),
            None => Ok(()),
        }
    }

    /// Parts a sheet into its states and the contents of its atoms, or hands back the first field
    /// that 10 fits.
    fn laid_out<'a>(&self, sheet: &'a [u8]) -> Result<(Vec<u16>, Vec<&'a [u8]>), usize> {
        let (mut states, mut atoms) = (Vec::new(), Vec::new());
        let mut rest = sheet;
        while !rest.is_empty() {
            let place = states.len() + atoms.len();
            let (tag, content, after) = field(rest).ok_or(place)?;
            match (tag, content) {
                (STATE, &[high, low]) if atoms.is_empty() => {
                    states.push(u16::from_be_bytes([high, low]));
                }
                (ATOM, &[predicate, ref row @ ..]) => {
                    let predicate = self.rules.predicates.get(usize::from(predicate));
                    if predicate.ok_or(place)?.arity != row.len() {
                        return Err(place);
                    }
                    atoms.push(content);
                }
                _ => return Err(place),
            }
            rest = after;
        }
        Ok((states, atoms))
    }
}
