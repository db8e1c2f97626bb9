//! What both plain programs work on: the tables in one width, and clauses and queries whose terms
//! are flattened to slots.

use reference::{Accepted, Atom, Clause, Condition, Query, Term};

/// A place for a state: a variable, a nested term, or a state that a term names by itself. A field
/// has too few bytes for more than 256.
pub type Slot = u8;

/// The states of all slots.
pub type Values = [u8; 256];

/// The width of a table row.
const WIDTH: usize = 16;

/// The numbers of a file.
pub struct Desk {
    /// How many states there are.
    pub m: usize,
    /// The table of each symbol: 16 rows of 16 states; one argument alone counts as the first.
    tables: Vec<u8>,
    /// Where each predicate's cells start, and what each of its places weighs.
    predicates: Vec<(usize, [usize; 3])>,
    /// How many cells there are.
    pub cells: usize,
}

impl Desk {
    /// The numbers of an accepted file.
    pub fn of(accepted: &Accepted) -> Self {
        let m = accepted.automaton.states.len();
        let mut tables = vec![0; accepted.rules.symbols.len() * WIDTH * WIDTH];
        for (symbol, table) in tables.chunks_exact_mut(WIDTH * WIDTH).enumerate() {
            let own = &accepted.automaton.tables[symbol];
            for (first, row) in table.chunks_exact_mut(WIDTH).take(m).enumerate() {
                match accepted.rules.symbols[symbol].arity {
                    0 => row.fill(own[0]),
                    1 => row.fill(own[first]),
                    _ => row[..m].copy_from_slice(&own[first * m..][..m]),
                }
            }
        }
        let cells = |predicate: usize| {
            let arity = accepted.rules.predicates[predicate].arity;
            let start = accepted.mark(predicate, std::iter::repeat_n(0, arity));
            let weight = |place| {
                if place < arity {
                    m.pow((arity - place - 1) as u32)
                } else {
                    0
                }
            };
            (start, [weight(0), weight(1), weight(2)])
        };
        Desk {
            m,
            tables,
            predicates: (0..accepted.rules.predicates.len()).map(cells).collect(),
            cells: accepted.needs().marks,
        }
    }

    /// The set of all states.
    pub fn all(&self) -> u16 {
        ((1u32 << self.m) - 1) as u16
    }

    /// The state that an operation gives.
    pub fn apply(&self, operation: &Operation, values: &Values) -> u8 {
        let first = usize::from(values[usize::from(operation.first)]);
        let second = usize::from(values[usize::from(operation.second)]);
        self.tables[operation.table + first * WIDTH + second]
    }

    /// Where the cell of an atom is, by its slots.
    pub fn cell(&self, atom: &Flattened) -> Cell {
        let (start, weights) = self.predicates[atom.predicate];
        let mut parts = [(0, 0); 3];
        for (place, &slot) in atom.slots.iter().enumerate() {
            parts[place] = (slot, weights[place]);
        }
        Cell { start, parts }
    }

    /// The cell of a domain atom.
    pub fn place(&self, row: &Row) -> usize {
        let (start, [a, b, c]) = self.predicates[usize::from(row[0])];
        start + usize::from(row[1]) * a + usize::from(row[2]) * b + usize::from(row[3]) * c
    }
}

/// A place that depends on the states of up to three slots.
#[derive(Clone, Copy)]
pub struct Cell {
    start: usize,
    parts: [(Slot, usize); 3],
}

impl Cell {
    /// The slots that count.
    pub fn slots(&self) -> impl Iterator<Item = Slot> + '_ {
        (self.parts.iter())
            .filter(|part| part.1 > 0)
            .map(|part| part.0)
    }

    /// The place.
    pub fn at(&self, values: &Values) -> usize {
        (self.parts.iter()).fold(self.start, |sum, &(slot, weight)| {
            sum + usize::from(values[usize::from(slot)]) * weight
        })
    }
}

/// A symbol over two slots, or over one that stands twice.
#[derive(Clone, Copy, PartialEq, Eq)]
pub struct Operation {
    table: usize,
    /// The slot of the first argument.
    pub first: Slot,
    /// The slot of the second argument.
    pub second: Slot,
    /// The slot of the term.
    pub slot: Slot,
}

/// An atom over slots; a predicate of arity 0 counts as one over the state 0.
#[derive(Clone)]
pub struct Flattened {
    /// The predicate.
    pub predicate: usize,
    /// One to three slots.
    pub slots: Vec<Slot>,
}

impl Flattened {
    /// The atom with its states, if it has them: the predicate, then one to three states.
    pub fn row(&self, values: &Values) -> Row {
        let mut row = [self.predicate as u8, 0, 0, 0];
        for (state, &slot) in row[1..].iter_mut().zip(&self.slots) {
            *state = values[usize::from(slot)];
        }
        row
    }
}

/// A domain atom: its predicate and its states, then zeros.
pub type Row = [u8; 4];

/// A clause or a query over slots; the variables have the first ones.
pub struct Flat {
    /// The states that meet the condition on each variable.
    pub domains: Vec<u16>,
    /// How many slots there are.
    pub slots: usize,
    /// The slots whose states are known beforehand.
    pub fixed: Vec<(Slot, u8)>,
    /// The nested terms with variables, each after those that stand in it.
    pub operations: Vec<Operation>,
    /// The head, which a query has not.
    pub head: Option<Flattened>,
    /// The body, or the query's atom.
    pub body: Vec<Flattened>,
}

impl Flat {
    fn empty(domains: Vec<u16>) -> Self {
        Flat {
            slots: domains.len(),
            domains,
            fixed: Vec::new(),
            operations: Vec::new(),
            head: None,
            body: Vec::new(),
        }
    }

    /// A clause.
    pub fn clause(desk: &Desk, clause: &Clause) -> Self {
        let mut flat = Flat::empty(vec![desk.all(); clause.variables]);
        flat.head = Some(flat.atom(desk, &clause.head));
        flat.body = clause.body.iter().map(|a| flat.atom(desk, a)).collect();
        flat
    }

    /// A query.
    pub fn query(desk: &Desk, accepted: &Accepted, query: &Query) -> Self {
        let states = &accepted.automaton.states;
        let of = |t: usize| (0..desk.m).fold(0, |set, d| set | (states[d] >> t & 1) << d);
        let meeting = |condition: &Condition| match *condition {
            Condition::Of(t) => of(t),
            Condition::NotOf(t) => desk.all() & !of(t),
            Condition::Free => desk.all(),
        };
        let mut flat = Flat::empty(query.conditions.iter().map(meeting).collect());
        let atom = flat.atom(desk, &query.atom);
        flat.body.push(atom);
        flat
    }

    fn atom(&mut self, desk: &Desk, atom: &Atom) -> Flattened {
        let mut slots: Vec<Slot> = atom.terms.iter().map(|t| self.term(desk, t)).collect();
        if slots.is_empty() {
            slots.push(self.state(0));
        }
        Flattened {
            predicate: atom.predicate,
            slots,
        }
    }

    fn term(&mut self, desk: &Desk, term: &Term) -> Slot {
        let (symbol, arguments) = match term {
            Term::Variable(variable) => return *variable as Slot,
            Term::Apply(symbol, arguments) => (*symbol, arguments),
        };
        let table = symbol * WIDTH * WIDTH;
        let slots: Vec<Slot> = arguments.iter().map(|t| self.term(desk, t)).collect();
        let (Some(&first), Some(&second)) = (slots.first(), slots.last()) else {
            return self.state(desk.tables[table]);
        };
        let known = |slot| self.fixed.iter().find(|of| of.0 == slot).map(|of| of.1);
        if let (Some(first), Some(second)) = (known(first), known(second)) {
            return self
                .state(desk.tables[table + usize::from(first) * WIDTH + usize::from(second)]);
        }
        let same = |o: &&Operation| o.table == table && o.first == first && o.second == second;
        if let Some(operation) = self.operations.iter().find(same) {
            return operation.slot;
        }
        let slot = self.fresh();
        self.operations.push(Operation {
            table,
            first,
            second,
            slot,
        });
        slot
    }

    /// The slot of a state that is known beforehand.
    fn state(&mut self, state: u8) -> Slot {
        if let Some(&(slot, _)) = self.fixed.iter().find(|of| of.1 == state) {
            return slot;
        }
        let slot = self.fresh();
        self.fixed.push((slot, state));
        slot
    }

    fn fresh(&mut self) -> Slot {
        self.slots += 1;
        (self.slots - 1) as Slot
    }

    /// Whether each condition is met by some state.
    pub fn can_be_met(&self) -> bool {
        !self.domains.contains(&0)
    }

    /// Which slots are known beforehand.
    pub fn known(&self) -> Vec<bool> {
        let mut known = vec![false; self.slots];
        self.fixed
            .iter()
            .for_each(|of| known[usize::from(of.0)] = true);
        known
    }

    /// Which slots stand in the head or the body, by themselves or within a term.
    pub fn used(&self) -> Vec<bool> {
        let mut used = vec![false; self.slots];
        for atom in self.body.iter().chain(&self.head) {
            atom.slots
                .iter()
                .for_each(|&slot| used[usize::from(slot)] = true);
        }
        for operation in self.operations.iter() {
            used[usize::from(operation.first)] = true;
            used[usize::from(operation.second)] = true;
        }
        used
    }

    /// The variables in each slot, variable i being bit i.
    pub fn variables(&self) -> Vec<u8> {
        let mut sets = vec![0; self.slots];
        (0..self.domains.len()).for_each(|variable| sets[variable] = 1 << variable);
        for operation in &self.operations {
            sets[usize::from(operation.slot)] =
                sets[usize::from(operation.first)] | sets[usize::from(operation.second)];
        }
        sets
    }
}
