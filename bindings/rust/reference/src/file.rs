//! Reading a rule file: refusals 1 to 7.

use crate::Refusal;

/// The most bytes of a file.
pub const MOST_BYTES: usize = 32_768;
/// The most content bytes of a field.
pub const MOST_CONTENT: usize = 250;
/// The most fields of each kind, tags 1 to 6.
pub const MOST: [usize; 6] = [24, 12, 200, 16, 64, 32];

const MOST_VARIABLES: usize = 6;
const MOST_BODY: usize = 4;
const FIRST_VARIABLE: u8 = 128;
const NEGATED: u8 = 128;
const FREE: u8 = 255;

/// A symbol or a predicate.
#[derive(Clone, Debug)]
pub struct Named {
    /// How many arguments it takes.
    pub arity: usize,
    /// Its name.
    pub name: Vec<u8>,
}

/// A production: the symbol over arguments of these types is of the type.
#[derive(Clone, Debug)]
pub struct Production {
    /// The type that it gives.
    pub given: usize,
    /// The symbol.
    pub symbol: usize,
    /// The types of the arguments.
    pub arguments: Vec<usize>,
}

/// A term.
#[derive(Clone, Debug)]
pub enum Term {
    /// A variable.
    Variable(usize),
    /// A symbol over its arguments.
    Apply(usize, Vec<Term>),
}

/// An atom.
#[derive(Clone, Debug)]
pub struct Atom {
    /// The predicate.
    pub predicate: usize,
    /// Its terms.
    pub terms: Vec<Term>,
}

/// A clause.
#[derive(Clone, Debug)]
pub struct Clause {
    /// How many variables it declares.
    pub variables: usize,
    /// The head.
    pub head: Atom,
    /// The body.
    pub body: Vec<Atom>,
}

/// A condition on a query's variable.
#[derive(Clone, Copy, Debug)]
pub enum Condition {
    /// Of this type.
    Of(usize),
    /// Not of this type.
    NotOf(usize),
    /// Anything.
    Free,
}

/// A query.
#[derive(Clone, Debug)]
pub struct Query {
    /// A condition for each variable.
    pub conditions: Vec<Condition>,
    /// The atom.
    pub atom: Atom,
}

/// What a file declares.
#[derive(Clone, Debug, Default)]
pub struct Rules {
    /// How many fields the file has.
    pub fields: usize,
    /// Tag 1.
    pub symbols: Vec<Named>,
    /// Tag 2: the types' names.
    pub types: Vec<Vec<u8>>,
    /// Tag 3.
    pub productions: Vec<Production>,
    /// Tag 4.
    pub predicates: Vec<Named>,
    /// Tag 5.
    pub clauses: Vec<Clause>,
    /// Tag 6.
    pub queries: Vec<Query>,
}

/// Parts the first field from the bytes after it: its tag and its content; `None` if it is cut.
pub fn field(bytes: &[u8]) -> Option<(u8, &[u8], &[u8])> {
    let (&[tag, high, low], rest) = bytes.split_first_chunk()?;
    let length = usize::from(u16::from_be_bytes([high, low]));
    let (content, rest) = rest.split_at_checked(length)?;
    Some((tag, content, rest))
}

/// Reads a rule file.
pub fn read(file: &[u8]) -> Result<Rules, Refusal> {
    let refuse = |number, place| Err(Refusal { number, place });
    if file.len() > MOST_BYTES {
        return refuse(1, 0);
    }
    let mut rules = Rules::default();
    let mut rest = file;
    let mut least_tag = 1;
    while !rest.is_empty() {
        let place = rules.fields;
        let Some((tag, content, after)) = field(rest) else {
            return refuse(2, place);
        };
        if tag < least_tag || tag > 6 {
            return refuse(3, place);
        }
        if rules.count(tag) == MOST[usize::from(tag) - 1] {
            return refuse(6, place);
        }
        if let Err(number) = rules.add(tag, content) {
            return refuse(number, place);
        }
        rules.fields += 1;
        least_tag = tag;
        rest = after;
    }
    if rules.symbols.iter().all(|symbol| symbol.arity > 0) {
        return refuse(7, rules.fields);
    }
    Ok(rules)
}

impl Rules {
    /// How many fields of a kind have been read.
    fn count(&self, tag: u8) -> usize {
        match tag {
            1 => self.symbols.len(),
            2 => self.types.len(),
            3 => self.productions.len(),
            4 => self.predicates.len(),
            5 => self.clauses.len(),
            _ => self.queries.len(),
        }
    }

    /// Adds a field, or hands back 4 or 5.
    fn add(&mut self, tag: u8, content: &[u8]) -> Result<(), usize> {
        if content.len() > MOST_CONTENT {
            return Err(4);
        }
        let mut bytes = Bytes(content);
        match tag {
            1 => {
                let symbol = bytes.named(2).ok_or(4_usize)?;
                unused(self.symbols.iter().map(|other| &other.name), &symbol.name)?;
                self.symbols.push(symbol);
            }
            2 => {
                let name = bytes.name().ok_or(4_usize)?;
                unused(self.types.iter(), &name)?;
                self.types.push(name);
            }
            3 => {
                let production = self.production(&mut bytes).ok_or(4_usize)?;
                bytes.end().ok_or(4_usize)?;
                self.productions.push(production);
            }
            4 => {
                let predicate = bytes.named(3).ok_or(4_usize)?;
                let names = self.predicates.iter().map(|other| &other.name);
                unused(names, &predicate.name)?;
                self.predicates.push(predicate);
            }
            5 => {
                let clause = self.clause(&mut bytes).ok_or(4_usize)?;
                bytes.end().ok_or(4_usize)?;
                self.clauses.push(clause);
            }
            _ => {
                let query = self.query(&mut bytes).ok_or(4_usize)?;
                bytes.end().ok_or(4_usize)?;
                self.queries.push(query);
            }
        }
        Ok(())
    }

    fn production(&self, bytes: &mut Bytes) -> Option<Production> {
        let given = bytes.below(self.types.len())?;
        let symbol = bytes.below(self.symbols.len())?;
        let arguments = (0..self.symbols[symbol].arity)
            .map(|_| bytes.below(self.types.len()))
            .collect::<Option<_>>()?;
        Some(Production {
            given,
            symbol,
            arguments,
        })
    }

    fn clause(&self, bytes: &mut Bytes) -> Option<Clause> {
        let variables = bytes.below(MOST_VARIABLES + 1)?;
        let atoms = bytes.below(MOST_BODY + 1)?;
        let head = self.atom(bytes, variables)?;
        let body = (0..atoms)
            .map(|_| self.atom(bytes, variables))
            .collect::<Option<_>>()?;
        Some(Clause {
            variables,
            head,
            body,
        })
    }

    fn query(&self, bytes: &mut Bytes) -> Option<Query> {
        let variables = bytes.below(MOST_VARIABLES + 1)?;
        let conditions = (0..variables)
            .map(|_| self.condition(bytes))
            .collect::<Option<_>>()?;
        let atom = self.atom(bytes, variables)?;
        Some(Query { conditions, atom })
    }

    fn condition(&self, bytes: &mut Bytes) -> Option<Condition> {
        let byte = bytes.next()?;
        if byte == FREE {
            return Some(Condition::Free);
        }
        let (of, number) = match byte.checked_sub(NEGATED) {
            Some(number) => (false, usize::from(number)),
            None => (true, usize::from(byte)),
        };
        if number >= self.types.len() {
            return None;
        }
        Some(match of {
            true => Condition::Of(number),
            false => Condition::NotOf(number),
        })
    }

    fn atom(&self, bytes: &mut Bytes, variables: usize) -> Option<Atom> {
        let predicate = bytes.below(self.predicates.len())?;
        let terms = self.terms(bytes, variables, self.predicates[predicate].arity)?;
        Some(Atom { predicate, terms })
    }

    fn terms(&self, bytes: &mut Bytes, variables: usize, arity: usize) -> Option<Vec<Term>> {
        (0..arity).map(|_| self.term(bytes, variables)).collect()
    }

    fn term(&self, bytes: &mut Bytes, variables: usize) -> Option<Term> {
        let byte = bytes.next()?;
        if let Some(variable) = byte.checked_sub(FIRST_VARIABLE) {
            let variable = usize::from(variable);
            return (variable < variables).then_some(Term::Variable(variable));
        }
        let symbol = usize::from(byte);
        let arity = self.symbols.get(symbol)?.arity;
        Some(Term::Apply(symbol, self.terms(bytes, variables, arity)?))
    }
}

/// 5 if the name is among those used.
fn unused<'a>(mut used: impl Iterator<Item = &'a Vec<u8>>, name: &[u8]) -> Result<(), usize> {
    match used.any(|other| other == name) {
        true => Err(5),
        false => Ok(()),
    }
}

/// The content bytes that are left.
struct Bytes<'a>(&'a [u8]);

impl Bytes<'_> {
    fn next(&mut self) -> Option<u8> {
        let (&byte, rest) = self.0.split_first()?;
        self.0 = rest;
        Some(byte)
    }

    /// The next byte, if it is below the limit.
    fn below(&mut self, limit: usize) -> Option<usize> {
        self.next().map(usize::from).filter(|&byte| byte < limit)
    }

    /// The rest as a name.
    fn name(&mut self) -> Option<Vec<u8>> {
        let name = std::mem::take(&mut self.0);
        let fits = |byte: &u8| matches!(byte, b'a'..=b'z' | b'0'..=b'9' | b'[' | b']' | b'_');
        ((1..=8).contains(&name.len()) && name.iter().all(fits)).then(|| name.to_vec())
    }

    /// An arity and the rest as a name.
    fn named(&mut self, most: usize) -> Option<Named> {
        Some(Named {
            arity: self.below(most + 1)?,
            name: self.name()?,
        })
    }

    fn end(&self) -> Option<()> {
        self.0.is_empty().then_some(())
    }
}
