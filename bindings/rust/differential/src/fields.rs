//! Fields of files and sheets, and damage done to them.

use crate::random::Random;

/// A field: a tag and a content.
#[derive(Clone, PartialEq, Eq, PartialOrd, Ord)]
pub struct Field {
    /// The tag.
    pub tag: u8,
    /// The content, of at most 65,535 bytes.
    pub content: Vec<u8>,
}

/// The bytes of fields.
pub fn bytes(fields: &[Field]) -> Vec<u8> {
    let mut bytes = Vec::new();
    for Field { tag, content } in fields {
        bytes.push(*tag);
        bytes.extend((content.len() as u16).to_be_bytes());
        bytes.extend(content);
    }
    bytes
}

/// The fields that bytes are made of; `None` if one is cut.
pub fn fields(mut bytes: &[u8]) -> Option<Vec<Field>> {
    let mut fields = Vec::new();
    while !bytes.is_empty() {
        let (tag, content, rest) = reference::field(bytes)?;
        let content = content.to_vec();
        fields.push(Field { tag, content });
        bytes = rest;
    }
    Some(fields)
}

/// Bytes at the edge of some range of the specification.
const EDGES: [u8; 24] = [
    0, 1, 2, 3, 4, 5, 6, 7, 11, 12, 15, 16, 17, 23, 24, 127, 128, 133, 134, 139, 140, 250, 254, 255,
];
/// Bytes just outside those of a name, and some inside.
const NAME_EDGES: &[u8] = b"`{/:Z\\^az09[]_ ";

/// Damages one field, or the order of the fields.
pub fn damage_fields(random: &mut Random, fields: &mut Vec<Field>) {
    if fields.is_empty() {
        return;
    }
    let place = random.below(fields.len());
    let other = random.below(fields.len());
    let content = &mut fields[place].content;
    match random.below(12) {
        0 => fields.swap(place, other),
        1 => fields.insert(place, fields[other].clone()),
        2 => drop(fields.remove(place)),
        3 => fields[place].tag = random.pick(&EDGES),
        4 => fields[place].tag = fields[other].tag,
        5 => content.push(random.byte()),
        6 => drop(content.pop()),
        7 => content.clear(),
        8 => {
            let length = random.pick(&[9, 10, 249, 250, 251, 252, 256, 300]);
            let last = content.last().copied().unwrap_or(b'a');
            content.resize(length, last);
        }
        _ if content.is_empty() => content.push(random.pick(&EDGES)),
        9 => {
            let last = content.len() - 1;
            content[last] = random.pick(NAME_EDGES);
        }
        _ => {
            let byte = random.below(content.len().min(12));
            content[byte] = random.pick(&EDGES);
        }
    }
}

/// Damages bytes anywhere.
pub fn damage_bytes(random: &mut Random, bytes: &mut Vec<u8>) {
    let place = random.below(bytes.len() + 1);
    match random.below(6) {
        0 | 1 => bytes.truncate(place),
        2 => bytes.insert(place, random.byte()),
        3 => bytes.extend((0..random.within(1..=4)).map(|_| random.pick(&EDGES))),
        _ if place == bytes.len() => bytes.push(random.pick(&EDGES)),
        4 => drop(bytes.remove(place)),
        _ => bytes[place] = random.byte(),
    }
}
