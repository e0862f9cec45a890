//! Protocol Buffers fields written for tests: a key and its value, each a list of bytes.
use crate::form::Form;

pub fn number(value: u64) -> Vec<u8> {
    value.written()
}

/// A number in more bytes than it needs, ten at most.
pub fn overlong(value: u64, bytes: usize) -> Vec<u8> {
    let mut out: Vec<u8> = (0..bytes).map(|group| (value >> (7 * group)) as u8 | 128).collect();
    out[bytes - 1] &= 127;
    out
}

pub fn key(field: u64, wire_type: u64) -> Vec<u8> {
    number(field << 3 | wire_type)
}

pub fn varint(field: u64, value: u64) -> Vec<u8> {
    [key(field, 0), number(value)].concat()
}

/// A length-delimited field: a text or a message.
pub fn delimited(field: u64, bytes: impl AsRef<[u8]>) -> Vec<u8> {
    let bytes = bytes.as_ref();
    [key(field, 2), number(bytes.len() as u64), bytes.into()].concat()
}

pub fn group(field: u64, fields: &[u8]) -> Vec<u8> {
    [key(field, 3), fields.into(), key(field, 4)].concat()
}

/// Groups of one field number, so many deep.
pub fn groups(field: u64, depth: usize) -> Vec<u8> {
    (0..depth).fold(Vec::new(), |inner, _| group(field, &inner))
}
