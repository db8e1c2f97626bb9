//! Made-up rule files, whole and damaged.

use crate::fields::{self, damage_bytes, damage_fields, Field};
use crate::random::Random;
use reference::{MOST, MOST_BYTES, MOST_CONTENT};

const SYMBOL: u8 = 1;
const TYPE: u8 = 2;
const PRODUCTION: u8 = 3;
const PREDICATE: u8 = 4;
const CLAUSE: u8 = 5;
const QUERY: u8 = 6;

const VARIABLE: u8 = 128;
const NOT: u8 = 128;
const FREE: u8 = 255;

const NAME_BYTES: &[u8; 39] = b"abcdefghijklmnopqrstuvwxyz0123456789[]_";

/// A rule file.
pub fn file(random: &mut Random) -> Vec<u8> {
    type Make = fn(&mut Random) -> Vec<u8>;
    let make = random.weighted::<Make>(&[
        (500, whole),
        (250, damaged),
        (40, many_sets),
        (60, limits),
        (35, long_content),
        (35, long_file),
        (30, same_name),
        (30, no_constant),
        (10, heavy),
        (5, longest),
        (5, noise),
    ]);
    make(random)
}

/// A file that is most often accepted.
fn whole(random: &mut Random) -> Vec<u8> {
    let mut draft = Draft::new(random);
    draft.whole();
    draft.bytes()
}

/// An accepted file with one to three faults.
fn damaged(random: &mut Random) -> Vec<u8> {
    let mut draft = Draft::new(random);
    draft.whole();
    let mut fields = draft.into_fields();
    let mut faults = random.within(1..=3);
    while faults > 0 && random.chance(75) {
        damage_fields(random, &mut fields);
        faults -= 1;
    }
    let mut file = fields::bytes(&fields);
    for _ in 0..faults {
        damage_bytes(random, &mut file);
    }
    file
}

/// Around 16 states: constants of distinct sets of types, and sometimes symbols over them.
fn many_sets(random: &mut Random) -> Vec<u8> {
    let mut draft = Draft::new(random);
    let sets = draft.random.pick(&[15, 16, 16, 17, 17, 17, 18, 24]);
    let types = draft.random.pick(&[5, 6, 8, 12]);
    draft.types(types);
    let mut used = Vec::new();
    while used.len() < sets {
        let set = draft.random.below(1 << types) & draft.random.below(1 << types);
        if !used.contains(&set) {
            used.push(set);
            draft.constant(set);
        }
    }
    if draft.random.chance(40) && sets < 24 {
        draft.symbol(1);
        draft.productions(3, sets);
    }
    draft.predicates(3, 2);
    draft.clauses(4, 2);
    draft.queries(3, 2);
    draft.bytes()
}

/// Each kind at its most, below it, or one over.
fn limits(random: &mut Random) -> Vec<u8> {
    let mut draft = Draft::new(random);
    let mut counts = [3, 3, 12, 4, 6, 4];
    for (count, most) in counts.iter_mut().zip(MOST) {
        if draft.random.chance(45) {
            *count = most;
        }
    }
    if draft.random.chance(40) {
        let over = draft.random.below(6);
        counts[over] = MOST[over] + 1;
    }
    let [symbols, types, productions, predicates, clauses, queries] = counts;
    draft.symbol(0);
    for _ in 1..symbols {
        let arity = draft.random.weighted(&[(5, 0), (3, 1), (2, 2)]);
        draft.symbol(arity);
    }
    draft.types(types);
    // Few of the types have terms, so that the states are few.
    draft.inhabited = draft.random.within(1..=4).min(types);
    for _ in 0..productions {
        draft.production(0);
    }
    let most_arity = draft.random.weighted(&[(4, 1), (3, 2), (1, 3)]);
    for _ in 0..predicates {
        let arity = draft.random.within(0..=most_arity);
        draft.predicate(arity);
    }
    for _ in 0..clauses {
        draft.clause(3);
    }
    for _ in 0..queries {
        draft.query(3);
    }
    draft.bytes()
}

/// A clause or a query whose content has about 250 bytes.
fn long_content(random: &mut Random) -> Vec<u8> {
    let mut draft = Draft::new(random);
    draft.small();
    let s = draft.symbol(1);
    let p = draft.predicate(1);
    for _ in 0..draft.random.within(1..=3) {
        let length = draft.random.pick(&[
            MOST_CONTENT - 1,
            MOST_CONTENT,
            MOST_CONTENT,
            MOST_CONTENT,
            MOST_CONTENT + 1,
            MOST_CONTENT + 1,
            300,
        ]);
        let tag = draft.random.pick(&[CLAUSE, QUERY]);
        draft.padded(tag, length, p, s);
    }
    draft.bytes()
}

/// A file of about 32,768 bytes, or more.
fn long_file(random: &mut Random) -> Vec<u8> {
    let mut file = whole(random);
    let length = random.pick(&[
        MOST_BYTES - 1,
        MOST_BYTES,
        MOST_BYTES,
        MOST_BYTES + 1,
        MOST_BYTES + 1,
        MOST_BYTES + 1,
        MOST_BYTES + 1,
        40_000,
        65_000,
    ]);
    match random.below(3) {
        0 => {
            let content = vec![random.byte(); length - file.len() - 3];
            file.extend(fields::bytes(&[Field {
                tag: QUERY,
                content,
            }]));
        }
        1 => {
            let byte = random.byte();
            file.resize(length, byte);
        }
        _ => {
            // Fields that are repeated, and one field cut unless the lengths meet.
            let query = [QUERY, 0, 2, 0, 0];
            let fill = query.iter().copied().cycle();
            file.extend(fill.take(length - file.len()));
        }
    }
    file
}

/// A name that is already used in its kind.
fn same_name(random: &mut Random) -> Vec<u8> {
    let mut draft = Draft::new(random);
    draft.whole();
    let mut fields = draft.into_fields();
    let tag = random.pick(&[SYMBOL, TYPE, PREDICATE]);
    let places: Vec<usize> = (0..fields.len())
        .filter(|&place| fields[place].tag == tag)
        .collect();
    if places.len() > 1 {
        let (one, other) = (random.pick(&places), random.pick(&places));
        let start = usize::from(tag != TYPE);
        let name = fields[one].content[start..].to_vec();
        fields[other].content.truncate(start);
        fields[other].content.extend(name);
        if random.chance(30) {
            damage_fields(random, &mut fields);
        }
    } else if let Some(&place) = places.first() {
        fields.insert(place, fields[place].clone());
    }
    fields::bytes(&fields)
}

/// No symbol of arity 0.
fn no_constant(random: &mut Random) -> Vec<u8> {
    let mut draft = Draft::new(random);
    for _ in 0..draft.random.below(4) {
        let arity = draft.random.within(1..=2);
        draft.symbol(arity);
    }
    let types = draft.random.below(4);
    draft.types(types);
    draft.productions(4, 0);
    draft.predicates(3, 2);
    draft.clauses(3, 3);
    draft.queries(2, 3);
    draft.bytes()
}

/// Sixteen states and clauses of six variables.
fn heavy(random: &mut Random) -> Vec<u8> {
    let mut draft = Draft::new(random);
    draft.all_sets();
    let symbols = draft.random.weighted(&[(2, 0), (4, 2), (1, 8)]);
    for _ in 0..symbols {
        let arity = draft.random.within(1..=2);
        draft.symbol(arity);
    }
    draft.productions(12, 16);
    for arity in [1, 2, 3] {
        draft.predicate(arity);
    }
    if draft.random.chance(15) {
        // All the domain atoms but few that a file can have.
        for _ in 3..MOST[3] {
            draft.predicate(3);
        }
    }
    for _ in 0..draft.random.within(3..=8) {
        draft.fact(2);
    }
    for _ in 0..draft.random.within(1..=2) {
        let body = draft.random.within(2..=4);
        draft.rule(6, body, 1);
    }
    draft.queries(3, 3);
    draft.bytes()
}

/// The longest file that is accepted: every kind at its most, every content as long as it may be.
fn longest(random: &mut Random) -> Vec<u8> {
    let mut draft = Draft::new(random);
    draft.name_length = Some(8);
    draft.symbol(0);
    let s = draft.symbol(1);
    let f = draft.symbol(2);
    for _ in 3..MOST[0] {
        let arity = draft.random.weighted(&[(6, 0), (1, 1), (1, 2)]);
        draft.symbol(arity);
    }
    draft.types(MOST[1]);
    let inhabited = draft.random.within(1..=3);
    for _ in 0..MOST[2] {
        let given = draft.random.below(inhabited) as u8;
        let arguments = [0, 1].map(|_| draft.random.below(MOST[1]) as u8);
        draft.add(PRODUCTION, [vec![given, f], arguments.to_vec()].concat());
    }
    let p = draft.predicate(1);
    for _ in 1..MOST[3] {
        let arity = draft.random.within(0..=2);
        draft.predicate(arity);
    }
    for (kind, tag) in [(4, CLAUSE), (5, QUERY)] {
        for _ in 0..MOST[kind] {
            draft.padded(tag, MOST_CONTENT, p, s);
        }
    }
    draft.bytes()
}

/// Any bytes.
fn noise(random: &mut Random) -> Vec<u8> {
    (0..random.below(60))
        .map(|_| match random.chance(60) {
            true => random.below(7) as u8,
            false => random.byte(),
        })
        .collect()
}

/// A file in the making. Fields may be added in any order of their kinds.
struct Draft<'r> {
    random: &'r mut Random,
    fields: Vec<Field>,
    /// The symbols' arities.
    symbols: Vec<usize>,
    /// How many types there are.
    types: usize,
    /// Productions drawn give types below this one.
    inhabited: usize,
    /// The predicates' arities.
    predicates: Vec<usize>,
    /// The length of each name, if it is not drawn.
    name_length: Option<usize>,
}

impl<'r> Draft<'r> {
    fn new(random: &'r mut Random) -> Self {
        Draft {
            random,
            fields: Vec::new(),
            symbols: Vec::new(),
            types: 0,
            inhabited: 0,
            predicates: Vec::new(),
            name_length: None,
        }
    }

    /// The fields, kind after kind.
    fn into_fields(mut self) -> Vec<Field> {
        self.fields.sort_by_key(|field| field.tag);
        self.fields
    }

    fn bytes(self) -> Vec<u8> {
        fields::bytes(&self.into_fields())
    }

    fn add(&mut self, tag: u8, content: Vec<u8>) {
        self.fields.push(Field { tag, content });
    }

    /// A name with a last byte of its own in its kind.
    fn name(&mut self, number: usize) -> Vec<u8> {
        let length = match self.name_length {
            Some(length) => length,
            None => self.random.weighted(&[(6, 1), (2, 3), (1, 7), (1, 8)]),
        };
        let mut name: Vec<u8> = (1..length).map(|_| self.random.pick(NAME_BYTES)).collect();
        name.push(NAME_BYTES[number % NAME_BYTES.len()]);
        name
    }

    fn symbol(&mut self, arity: usize) -> u8 {
        let number = self.symbols.len();
        let name = self.name(number);
        self.add(SYMBOL, [vec![arity as u8], name].concat());
        self.symbols.push(arity);
        number as u8
    }

    fn types(&mut self, count: usize) {
        for _ in 0..count {
            let name = self.name(self.types);
            self.add(TYPE, name);
            self.types += 1;
        }
        self.inhabited = self.types;
    }

    /// A constant that is of just these types.
    fn constant(&mut self, set: usize) {
        let symbol = self.symbol(0);
        for given in (0..self.types).filter(|given| set >> given & 1 == 1) {
            self.add(PRODUCTION, vec![given as u8, symbol]);
        }
    }

    /// A production of one of the symbols from this one on, if there is any.
    fn production(&mut self, first: usize) {
        if self.symbols.len() <= first || self.inhabited == 0 {
            return;
        }
        let symbol = self.random.within(first..=self.symbols.len() - 1);
        let mut content = vec![self.random.below(self.inhabited) as u8, symbol as u8];
        for _ in 0..self.symbols[symbol] {
            content.push(self.random.below(self.types) as u8);
        }
        self.add(PRODUCTION, content);
    }

    /// Up to so many productions of the symbols from this one on.
    fn productions(&mut self, most: usize, first: usize) {
        for _ in 0..self.random.within(0..=most) {
            self.production(first);
        }
    }

    fn predicate(&mut self, arity: usize) -> u8 {
        let number = self.predicates.len();
        let name = self.name(number);
        self.add(PREDICATE, [vec![arity as u8], name].concat());
        self.predicates.push(arity);
        number as u8
    }

    /// One to so many predicates.
    fn predicates(&mut self, most: usize, most_arity: usize) {
        for _ in 0..self.random.within(1..=most) {
            let arity = self.random.within(0..=most_arity);
            self.predicate(arity);
        }
    }

    /// A term of at most this height over so many variables.
    fn term(&mut self, variables: usize, height: usize) -> Vec<u8> {
        let constants = (0..self.symbols.len()).filter(|&symbol| self.symbols[symbol] == 0);
        let constants: Vec<usize> = constants.collect();
        if height == 0 || self.symbols.len() == constants.len() || self.random.chance(60) {
            let variable = variables > 0 && (constants.is_empty() || self.random.chance(70));
            return match variable {
                true => vec![VARIABLE + self.random.below(variables) as u8],
                false if constants.is_empty() => vec![0],
                false => vec![self.random.pick(&constants) as u8],
            };
        }
        let symbol = self.random.below(self.symbols.len());
        let mut term = vec![symbol as u8];
        for _ in 0..self.symbols[symbol] {
            term.extend(self.term(variables, height - 1));
        }
        term
    }

    /// An atom of any predicate.
    fn atom(&mut self, variables: usize, height: usize) -> Vec<u8> {
        let predicate = self.random.below(self.predicates.len());
        let mut atom = vec![predicate as u8];
        for _ in 0..self.predicates[predicate] {
            atom.extend(self.term(variables, height));
        }
        atom
    }

    fn rule(&mut self, variables: usize, body: usize, height: usize) {
        let mut content = vec![variables as u8, body as u8];
        for _ in 0..=body {
            content.extend(self.atom(variables, height));
        }
        if content.len() <= MOST_CONTENT {
            self.add(CLAUSE, content);
        }
    }

    fn fact(&mut self, height: usize) {
        let variables = self.random.weighted(&[(6, 0), (2, 1), (1, 2)]);
        self.rule(variables, 0, height);
    }

    /// A clause of up to so many variables.
    fn clause(&mut self, most_variables: usize) {
        if self.predicates.is_empty() {
            return;
        }
        let least = usize::from(!self.symbols.contains(&0));
        let variables = self.random.within(least..=most_variables.max(least));
        let body = self
            .random
            .weighted(&[(4, 0), (5, 1), (4, 2), (1, 3), (1, 4)]);
        let height = self.random.weighted(&[(3, 0), (5, 1), (3, 2), (1, 3)]);
        self.rule(variables, body, height);
    }

    /// Up to so many clauses.
    fn clauses(&mut self, most: usize, most_variables: usize) {
        for _ in 0..self.random.within(0..=most) {
            self.clause(most_variables);
        }
    }

    fn condition(&mut self) -> u8 {
        if self.types == 0 || self.random.chance(30) {
            return FREE;
        }
        let of = self.random.below(self.types) as u8;
        match self.random.chance(50) {
            true => of,
            false => NOT + of,
        }
    }

    /// A query of up to so many variables.
    fn query(&mut self, most_variables: usize) {
        if self.predicates.is_empty() {
            return;
        }
        let least = usize::from(!self.symbols.contains(&0));
        let variables = self.random.within(least..=most_variables.max(least));
        let mut content = vec![variables as u8];
        for _ in 0..variables {
            content.push(self.condition());
        }
        let height = self.random.weighted(&[(6, 0), (3, 1), (1, 2)]);
        content.extend(self.atom(variables, height));
        self.add(QUERY, content);
    }

    /// Up to so many queries.
    fn queries(&mut self, most: usize, most_variables: usize) {
        for _ in 0..self.random.within(0..=most) {
            self.query(most_variables);
        }
    }

    /// A clause or query of just this length: a unary predicate over a long row of a unary symbol.
    fn padded(&mut self, tag: u8, length: usize, predicate: u8, symbol: u8) {
        let variables = self.random.below(3);
        let mut content = vec![variables as u8];
        let mut atoms = 1;
        if tag == CLAUSE {
            let body = self.random.below(5);
            content.push(body as u8);
            atoms += body;
        } else {
            for _ in 0..variables {
                content.push(self.condition());
            }
        }
        let mut spare = length - content.len() - 2 * atoms;
        for atom in 1..=atoms {
            let height = match atom == atoms {
                true => spare,
                false => self.random.below(spare + 1),
            };
            spare -= height;
            content.push(predicate);
            content.extend(vec![symbol; height]);
            content.extend(self.term(variables, 0));
        }
        self.add(tag, content);
    }

    /// Sixteen constants, one for each set of four types.
    fn all_sets(&mut self) {
        self.types(4);
        let mut sets: Vec<usize> = (0..16).collect();
        self.random.shuffle(&mut sets);
        for set in sets {
            self.constant(set);
        }
    }

    /// A file that is most often accepted.
    fn whole(&mut self) {
        let shape = self.random.weighted::<fn(&mut Self)>(&[
            (45, Self::small),
            (25, Self::counter),
            (20, Self::lists),
            (10, Self::sixteen),
        ]);
        shape(self);
    }

    /// A few of everything, and nothing of some kinds at times.
    fn small(&mut self) {
        let mut arities = vec![0; self.random.within(1..=3)];
        arities.extend(vec![1; self.random.below(3)]);
        arities.extend(vec![2; self.random.below(2)]);
        self.random.shuffle(&mut arities);
        for arity in arities {
            self.symbol(arity);
        }
        let types = self.random.below(5);
        self.types(types);
        self.productions(12, 0);
        if self.random.chance(92) {
            self.predicates(4, 3);
        }
        let most_variables = self.random.weighted(&[(3, 2), (3, 4), (1, 6)]);
        self.clauses(9, most_variables);
        self.queries(5, most_variables);
    }

    /// Counting in a circle: many rounds.
    fn counter(&mut self) {
        let (z, s) = match self.random.chance(50) {
            true => (self.symbol(0), self.symbol(1)),
            false => {
                let s = self.symbol(1);
                (self.symbol(0), s)
            }
        };
        let length = self.random.within(2..=11);
        self.types(length);
        self.add(PRODUCTION, vec![0, z]);
        for number in 0..length {
            let next = (number + 1) % length;
            self.add(PRODUCTION, vec![next as u8, s, number as u8]);
        }
        let x = VARIABLE;
        let y = VARIABLE + 1;
        let p = self.predicate(1);
        let q = self.predicate(2);
        self.predicates(2, 3);
        self.add(CLAUSE, vec![0, 0, p, z]);
        let step = vec![s; self.random.within(1..=3)];
        self.add(CLAUSE, [&[1, 1, p], &step[..], &[x, p, x]].concat());
        if self.random.chance(60) {
            self.add(CLAUSE, vec![1, 1, q, x, z, p, x]);
            self.add(
                CLAUSE,
                [&[2, 1, q, x, s, y, q], &step[..], &[x, y]].concat(),
            );
        }
        self.clauses(4, 3);
        self.queries(4, 3);
    }

    /// Lists and numbers, with some productions left out: append, reverse, members.
    fn lists(&mut self) {
        let (nil, cons) = (self.symbol(0), self.symbol(2));
        let (z, s) = (self.symbol(0), self.symbol(1));
        self.types(3);
        let [any, list, number] = [0, 1, 2];
        let productions = [
            vec![any, nil],
            vec![any, cons, any, any],
            vec![any, z],
            vec![any, s, any],
            vec![list, nil],
            vec![list, cons, any, list],
            vec![list, cons, number, list],
            vec![number, z],
            vec![number, s, number],
            vec![number, cons, number, number],
        ];
        for production in productions {
            if self.random.chance(70) {
                self.add(PRODUCTION, production);
            }
        }
        let (append, reverse, member) = (self.predicate(3), self.predicate(2), self.predicate(2));
        let [x, y, w, h] = [0, 1, 2, 3].map(|variable| VARIABLE + variable);
        let clauses = [
            vec![1, 0, append, nil, x, x],
            vec![4, 1, append, cons, h, x, y, cons, h, w, append, x, y, w],
            vec![0, 0, reverse, nil, nil],
            [
                &[4, 2, reverse, cons, h, x, y],
                &[reverse, x, w][..],
                &[append, w, cons, h, nil, y][..],
            ]
            .concat(),
            vec![2, 0, member, x, cons, x, y],
            vec![3, 1, member, x, cons, y, w, member, x, w],
        ];
        for clause in clauses {
            if self.random.chance(85) {
                self.add(CLAUSE, clause);
            }
        }
        self.clauses(3, 3);
        self.queries(6, 4);
    }

    /// Sixteen states, and symbols over them.
    fn sixteen(&mut self) {
        self.all_sets();
        for _ in 0..self.random.below(4) {
            let arity = self.random.within(0..=2);
            self.symbol(arity);
        }
        self.productions(12, 16);
        self.predicates(4, 2);
        if self.random.chance(25) {
            self.predicate(3);
        }
        self.clauses(8, 3);
        self.queries(4, 3);
    }
}
