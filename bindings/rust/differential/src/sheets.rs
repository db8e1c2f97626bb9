//! Made-up sheets for a file, whole and damaged.

use crate::fields::{self, damage_bytes, damage_fields, Field};
use crate::random::Random;
use reference::{row, Solved};

const STATE: u8 = 16;
const ATOM: u8 = 17;

/// More domain atoms than this are seldom all put into a sheet.
const MANY: usize = 3_000;

/// A sheet for a file; for a refused one it does not matter.
pub fn sheet(random: &mut Random, solved: Option<&Solved>) -> Vec<u8> {
    let Some(solved) = solved else {
        return (0..random.below(20)).map(|_| random.byte()).collect();
    };
    let mut states: Vec<Field> = (solved.accepted.automaton.states.iter())
        .map(|state| Field {
            tag: STATE,
            content: state.to_be_bytes().to_vec(),
        })
        .collect();
    let mut atoms = atoms(solved, &set(random, solved));
    if random.chance(50) {
        random.shuffle(&mut atoms);
    }
    let faults = random.weighted(&[(45, 0), (40, 1), (15, 2)]);
    for _ in 0..faults {
        damage_sheet(random, solved, &mut states, &mut atoms);
    }
    let mut fields = [states, atoms].concat();
    if faults > 0 && random.chance(25) {
        damage_fields(random, &mut fields);
    }
    let mut sheet = fields::bytes(&fields);
    if faults > 0 && random.chance(15) {
        damage_bytes(random, &mut sheet);
    }
    sheet
}

/// A set of domain atoms: the model, more, or fewer.
fn set(random: &mut Random, solved: &Solved) -> Vec<u8> {
    let mut set = solved.model.clone();
    if set.is_empty() {
        return set;
    }
    match random.below(10) {
        0..=4 => {}
        5 if set.len() <= MANY || random.chance(20) => set.fill(1),
        6 => set.fill(0),
        _ => {
            for _ in 0..random.within(1..=4) {
                let place = random.below(set.len());
                set[place] = 1;
            }
            if random.chance(60) {
                set = solved.accepted.close(set).0;
            }
        }
    }
    set
}

/// The fields of a set's atoms, by rising predicate and cell.
fn atoms(solved: &Solved, set: &[u8]) -> Vec<Field> {
    (0..set.len())
        .filter(|&mark| set[mark] == 1)
        .map(|mark| atom(solved, mark))
        .collect()
}

/// The field of the domain atom at a place of the marks.
fn atom(solved: &Solved, mark: usize) -> Field {
    let m = solved.accepted.automaton.states.len();
    let mut cell = mark;
    for (number, predicate) in solved.accepted.rules.predicates.iter().enumerate() {
        let cells = reference::cells(m, predicate.arity);
        if cell < cells {
            let states = row(m, predicate.arity, cell);
            let mut content = vec![number as u8];
            content.extend(states.into_iter().map(|state| state as u8));
            return Field { tag: ATOM, content };
        }
        cell -= cells;
    }
    unreachable!("the mark is one of the file's")
}

/// Damages the states or the atoms of a sheet.
fn damage_sheet(
    random: &mut Random,
    solved: &Solved,
    states: &mut Vec<Field>,
    atoms: &mut Vec<Field>,
) {
    let m = solved.accepted.automaton.states.len();
    let predicates = solved.accepted.rules.predicates.len();
    let fault = random.below(13);
    if fault < 5 && !states.is_empty() {
        let place = random.below(states.len());
        match fault {
            0 => states[place].content = (random.next() as u16).to_be_bytes().to_vec(),
            1 => drop(states.remove(place)),
            2 => states.insert(place, states[random.below(states.len())].clone()),
            3 => {
                let other = random.below(states.len());
                states.swap(place, other);
            }
            _ => atoms.push(states[place].clone()),
        }
    } else if fault < 11 && !atoms.is_empty() {
        let place = random.below(atoms.len());
        let other = random.below(atoms.len());
        let content = &mut atoms[place].content;
        match fault {
            5 | 6 => drop(atoms.remove(place)),
            7 => {
                let again = atoms[other].clone();
                atoms.insert(place, again);
            }
            8 if content.len() > 1 => {
                let state = random.within(1..=content.len() - 1);
                content[state] = (m + random.pick(&[0, 0, 1, 200])) as u8;
            }
            9 => content[0] = (predicates + random.pick(&[0, 0, 1, 100])) as u8,
            _ => content.push(random.below(m) as u8),
        }
    } else if !solved.model.is_empty() {
        let added = atom(solved, random.below(solved.model.len()));
        atoms.push(added);
    }
}
