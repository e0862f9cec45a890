//! Document 01's "Wire reader" over again, plainly: the listed fields of a message in order, as a
//! tree in which unlisted fields leave no trace. It judges messages where prost has other limits.
use std::ops::Range;

/// The message types of document 01's list, and those of document 02's for alerts (C-11). These have a list of their
/// own from the message on, and are told apart by their place where their limits are.
#[derive(Clone, Copy, Debug, PartialEq)]
pub enum Type {
    FeedMessage,
    FeedHeader,
    FeedEntity,
    TripUpdate,
    TripDescriptor,
    StopTimeUpdate,
    StopTimeEvent,
    AlertMessage,
    AlertEntity,
    Alert,
    EntitySelector,
    SelectedTrip,
    HeaderText,
    HeaderTranslation,
    DescriptionText,
    DescriptionTranslation,
}

/// What a listed field holds, as far as questions 4 to 6 tell them apart.
#[derive(Clone, Copy, Debug, PartialEq)]
pub enum Listed {
    Number,
    Time,
    Id,
    /// A start date or start time.
    Short,
    /// An id that gets the feed's prefix on a sheet.
    Prefixed,
    Header,
    Description,
    Message(Type),
}

pub fn listed(message: Type, field: u64) -> Option<Listed> {
    use Listed::{Description, Header, Id, Message, Number, Prefixed, Short, Time};
    use Type::*;
    Some(match (message, field) {
        (FeedMessage, 1) => Message(FeedHeader),
        (FeedMessage, 2) => Message(FeedEntity),
        (FeedHeader, 2 | 3) => Number,
        (FeedEntity, 2) => Number,
        (FeedEntity, 3) => Message(TripUpdate),
        (TripUpdate, 1) => Message(TripDescriptor),
        (TripUpdate, 2) => Message(StopTimeUpdate),
        (TripUpdate, 5) => Number,
        (TripDescriptor, 1 | 5) => Id,
        (TripDescriptor, 2 | 3) => Short,
        (TripDescriptor, 4 | 6) => Number,
        (StopTimeUpdate, 1 | 5) => Number,
        (StopTimeUpdate, 2 | 3) => Message(StopTimeEvent),
        (StopTimeUpdate, 4) => Id,
        (StopTimeEvent, 1) => Number,
        (StopTimeEvent, 2) => Time,
        (AlertMessage, 2) => Message(AlertEntity),
        (AlertEntity, 2) => Number,
        (AlertEntity, 5) => Message(Alert),
        (Alert, 5) => Message(EntitySelector),
        (Alert, 10) => Message(HeaderText),
        (Alert, 11) => Message(DescriptionText),
        (EntitySelector, 2 | 5) => Prefixed,
        (EntitySelector, 4) => Message(SelectedTrip),
        (SelectedTrip, 1) => Prefixed,
        (HeaderText, 1) => Message(HeaderTranslation),
        (HeaderTranslation, 1) => Header,
        (DescriptionText, 1) => Message(DescriptionTranslation),
        (DescriptionTranslation, 1) => Description,
        _ => return None,
    })
}

#[derive(Clone, Debug, PartialEq)]
pub enum Value {
    Number(u64),
    Text(Vec<u8>),
    Message(Vec<Field>),
}

#[derive(Clone, Debug, PartialEq)]
pub struct Field {
    pub number: u64,
    pub listed: Listed,
    pub value: Value,
}

pub const DEEPEST_GROUP: usize = 16;

/// The listed fields of a whole message; none where it is broken.
pub fn tree(message: Type, bytes: &[u8], deepest_group: usize) -> Option<Vec<Field>> {
    let mut left = bytes;
    let mut fields = Vec::new();
    while !left.is_empty() {
        let (number, wire_type) = key(&mut left)?;
        let Some(listed) = listed(message, number) else {
            skip(&mut left, number, wire_type, deepest_group)?;
            continue;
        };
        let value = match (listed, wire_type) {
            (Listed::Number | Listed::Time, 0) => Value::Number(varint(&mut left)?),
            (Listed::Number | Listed::Time, _) => return None,
            (Listed::Message(inner), 2) => Value::Message(tree(inner, delimited(&mut left)?, deepest_group)?),
            (_, 2) => Value::Text(delimited(&mut left)?.into()),
            _ => return None,
        };
        fields.push(Field { number, listed, value });
    }
    Some(fields)
}

/// Where the field that begins at a place ends, whatever it holds; none where it is broken.
pub fn field_end(bytes: &[u8], at: usize) -> Option<usize> {
    let mut left = bytes.get(at..)?;
    let (number, wire_type) = key(&mut left)?;
    skip(&mut left, number, wire_type, DEEPEST_GROUP)?;
    Some(bytes.len() - left.len())
}

/// Whether the field that begins at a place is listed; none where its key is broken.
pub fn is_listed(message: Type, bytes: &[u8], at: usize) -> Option<bool> {
    let (number, _) = key(&mut bytes.get(at..)?)?;
    Some(listed(message, number).is_some())
}

/// The number, the type and the place of the listed message in the field that begins at a place; none where the field
/// is another one.
pub fn inner(message: Type, bytes: &[u8], at: usize) -> Option<(u64, Type, Range<usize>)> {
    let mut left = bytes.get(at..)?;
    let (number, _) = key(&mut left)?;
    let Some(Listed::Message(inner)) = listed(message, number) else {
        return None;
    };
    let place = delimited(&mut left)?;
    let end = bytes.len() - left.len();
    Some((number, inner, end - place.len()..end))
}

fn varint(left: &mut &[u8]) -> Option<u64> {
    let length = left.iter().take(10).position(|byte| *byte < 128)? + 1;
    let (bytes, rest) = left.split_at(length);
    *left = rest;
    let value = bytes.iter().rev().fold(0u128, |value, byte| value << 7 | u128::from(byte & 127));
    u64::try_from(value).ok()
}

fn key(left: &mut &[u8]) -> Option<(u64, u64)> {
    let key = varint(left)?;
    (8..1 << 32).contains(&key).then_some((key >> 3, key & 7))
}

fn take<'a>(left: &mut &'a [u8], count: u64) -> Option<&'a [u8]> {
    let (taken, rest) = left.split_at_checked(usize::try_from(count).ok()?)?;
    *left = rest;
    Some(taken)
}

fn delimited<'a>(left: &mut &'a [u8]) -> Option<&'a [u8]> {
    let length = varint(left)?;
    take(left, length)
}

fn skip(left: &mut &[u8], number: u64, wire_type: u64, depth_left: usize) -> Option<()> {
    match wire_type {
        0 => varint(left).map(|_| ()),
        1 => take(left, 8).map(|_| ()),
        2 => delimited(left).map(|_| ()),
        3 => skip_group(left, number, depth_left.checked_sub(1)?),
        5 => take(left, 4).map(|_| ()),
        _ => None,
    }
}

fn skip_group(left: &mut &[u8], number: u64, depth_left: usize) -> Option<()> {
    loop {
        match key(left)? {
            (end, 4) => return (end == number).then_some(()),
            (inner, wire_type) => skip(left, inner, wire_type, depth_left)?,
        }
    }
}
