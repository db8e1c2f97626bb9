//! Rule files that grow in one number.

/// A rule file in the making.
#[derive(Default)]
struct File(Vec<u8>);

impl File {
    fn field(&mut self, tag: u8, content: &[u8]) {
        self.0.extend([tag, 0, content.len() as u8]);
        self.0.extend(content);
    }
}

const VARIABLE: u8 = 128;
const ZERO: u8 = 0;
const NEXT: u8 = 1;

/// A constant z and a symbol s, with a type for each of `states` classes of s(s(..z)), counted
/// round: as many states.
fn ring(states: u8) -> File {
    let mut file = File::default();
    file.field(1, b"\0z");
    file.field(1, b"\x01s");
    for t in 0..states {
        file.field(2, &[b'a' + t]);
    }
    file.field(3, &[0, ZERO]);
    for t in 0..states {
        file.field(3, &[(t + 1) % states, NEXT, t]);
    }
    file
}

/// Sixteen states at most, by constants: a state for each of the first subsets of four types.
fn constants(states: u8) -> File {
    let mut file = File::default();
    for c in 0..states {
        file.field(1, &[0, b'a' + c]);
    }
    for t in 0..4 {
        file.field(2, &[b'a' + t]);
    }
    for t in 0..4 {
        for c in (0..states).filter(|c| c >> t & 1 == 1) {
            file.field(3, &[t, c]);
        }
    }
    file
}

/// The transitive closure of a row of `states` constants.
pub fn by_states(states: u8) -> Vec<u8> {
    let mut file = constants(states);
    file.field(4, b"\x02p");
    for c in 1..states {
        file.field(5, &[0, 0, 0, c - 1, c]);
    }
    let (x, y, z) = (VARIABLE, VARIABLE + 1, VARIABLE + 2);
    file.field(5, &[3, 2, 0, x, z, 0, x, y, 0, y, z]);
    file.0
}

/// A clause over `variables` variables that stand apart from one another, over 16 states.
pub fn by_variables(variables: u8) -> Vec<u8> {
    let mut file = constants(16);
    file.field(4, b"\x01p");
    file.field(4, b"\x03q");
    for c in 0..16 {
        file.field(5, &[0, 0, 0, c]);
    }
    let variable = |i: u8| VARIABLE + i.min(variables - 1);
    let mut clause = vec![variables, 3, 1, variable(0), variable(1), variable(2)];
    for i in 3..6 {
        clause.extend([0, variable(i)]);
    }
    file.field(5, &clause);
    file.0
}

/// Chained counters over 10 states, one atom a round: 10, 100, 1,000 or 10,000 rounds.
pub fn by_rounds(digits: u8) -> Vec<u8> {
    let mut file = ring(10);
    let (arity, counters) = if digits == 4 { (3, 10) } else { (digits, 1) };
    let last = [vec![NEXT; 9], vec![ZERO]].concat();
    for p in 0..counters {
        file.field(4, &[arity, b'a' + p]);
    }
    for p in 0..counters {
        let mut first = vec![0, u8::from(p > 0), p];
        first.extend(vec![ZERO; arity.into()]);
        if p > 0 {
            first.push(p - 1);
            first.extend(last.repeat(arity.into()));
        }
        file.field(5, &first);
        // digit d goes on where the digits after it are at their last, which start again
        for d in 0..arity {
            let before: Vec<u8> = (0..d).map(|i| VARIABLE + i).collect();
            let after = usize::from(arity - d - 1);
            let mut clause = vec![d + 1, 1, p];
            clause.extend(&before);
            clause.extend([NEXT, VARIABLE + d]);
            clause.extend(vec![ZERO; after]);
            clause.push(p);
            clause.extend(&before);
            clause.push(VARIABLE + d);
            clause.extend(last.repeat(after));
            file.field(5, &clause);
        }
    }
    file.0
}
