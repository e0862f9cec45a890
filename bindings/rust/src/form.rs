//! Document 01's forms: how each kind of value is written, and the strict reading that takes no other bytes.
//! Limits of texts, ranges and counts are not asked here: the calls judge them, and say a number.
use crate::tree::{Tree, TreeError};
use std::fmt;

/// Bytes that are read from the front.
pub struct Reader<'a> {
    bytes: &'a [u8],
    at: usize,
}

impl<'a> Reader<'a> {
    fn take(&mut self, count: usize) -> Result<&'a [u8], FormError> {
        let rest = &self.bytes[self.at..];
        let taken = rest.get(..count).ok_or_else(|| self.error("the bytes end too early"))?;
        self.at += count;
        Ok(taken)
    }

    pub(crate) fn byte(&mut self) -> Result<u8, FormError> {
        Ok(self.take(1)?[0])
    }

    /// What is wrong, at this place.
    pub(crate) fn error(&self, what: &'static str) -> FormError {
        FormError { at: self.at, what }
    }
}

/// Bytes that have not the form: what is wrong, and near which byte.
#[derive(Clone, Copy, Debug, PartialEq, Eq)]
pub struct FormError {
    pub at: usize,
    pub what: &'static str,
}

impl fmt::Display for FormError {
    fn fmt(&self, f: &mut fmt::Formatter) -> fmt::Result {
        write!(f, "{}, near byte {}", self.what, self.at)
    }
}

impl std::error::Error for FormError {}

/// A value with a form: bytes, either way, and the same as a tree of named values (for JSON).
///
/// ```
/// use mipsuqal::{Card, Form, Status};
/// let card = Card { departure: 1_767_225_600, arrival: 1_767_225_600, ..Card::default() };
/// let bytes = card.encode();
/// assert_eq!(bytes, [1, 0x80, 0xe4, 0xad, 0x95, 0x0d, 0x80, 0xe4, 0xad, 0x95, 0x0d, 0, 0, 0, 0]);
/// assert_eq!(Card::decode(&bytes)?.status, Status::Scheduled);
/// # Ok::<(), mipsuqal::FormError>(())
/// ```
pub trait Form: Sized {
    fn write(&self, out: &mut Vec<u8>);
    fn read(from: &mut Reader) -> Result<Self, FormError>;
    fn tree(&self) -> Tree;
    fn of_tree(tree: &Tree) -> Result<Self, TreeError>;

    fn encode(&self) -> Vec<u8> {
        let mut out = Vec::new();
        self.write(&mut out);
        out
    }

    /// The value that stands in front, and how many bytes it takes.
    fn decode_front(bytes: &[u8]) -> Result<(Self, usize), FormError> {
        let mut reader = Reader { bytes, at: 0 };
        Ok((Self::read(&mut reader)?, reader.at))
    }

    /// The value that the bytes hold from the first to the last.
    fn decode(bytes: &[u8]) -> Result<Self, FormError> {
        let (value, at) = Self::decode_front(bytes)?;
        if at < bytes.len() {
            return Err(FormError { at, what: "there are bytes behind the end" });
        }
        Ok(value)
    }
}

/// A number: seven bits a byte, low first, shortest.
impl Form for u64 {
    fn write(&self, out: &mut Vec<u8>) {
        let mut rest = *self;
        while rest >= 128 {
            out.push(rest as u8 | 128);
            rest >>= 7;
        }
        out.push(rest as u8);
    }

    fn read(from: &mut Reader) -> Result<Self, FormError> {
        let mut value: u128 = 0;
        for group in 0..10 {
            let byte = from.byte()?;
            value |= u128::from(byte & 127) << (7 * group);
            if byte < 128 {
                if group > 0 && byte == 0 {
                    return Err(from.error("a number is not in its shortest form"));
                }
                return u64::try_from(value).map_err(|_| from.error("a number is 2^64 or more"));
            }
        }
        Err(from.error("a number has more than ten bytes"))
    }

    fn tree(&self) -> Tree {
        Tree::Number((*self).into())
    }

    fn of_tree(tree: &Tree) -> Result<Self, TreeError> {
        tree.number("a whole number from 0 to 2^64 - 1")
    }
}

/// A signed number: 2n, or -2n - 1 below zero.
impl Form for i64 {
    fn write(&self, out: &mut Vec<u8>) {
        ((self << 1) ^ (self >> 63)).cast_unsigned().write(out);
    }

    fn read(from: &mut Reader) -> Result<Self, FormError> {
        let coded = u64::read(from)?;
        Ok((coded >> 1).cast_signed() ^ -(coded & 1).cast_signed())
    }

    fn tree(&self) -> Tree {
        Tree::Number((*self).into())
    }

    fn of_tree(tree: &Tree) -> Result<Self, TreeError> {
        tree.number("a whole number in 64 bits, signed")
    }
}

/// A flag: 0 or 1.
impl Form for bool {
    fn write(&self, out: &mut Vec<u8>) {
        out.push(u8::from(*self));
    }

    fn read(from: &mut Reader) -> Result<Self, FormError> {
        match from.byte()? {
            0 => Ok(false),
            1 => Ok(true),
            _ => Err(from.error("a flag is neither 0 nor 1")),
        }
    }

    fn tree(&self) -> Tree {
        Tree::Flag(*self)
    }

    fn of_tree(tree: &Tree) -> Result<Self, TreeError> {
        match tree {
            Tree::Flag(flag) => Ok(*flag),
            _ => Err(TreeError::wanted("true or false")),
        }
    }
}

/// A float: its 64 bits, low byte first, whatever they are.
impl Form for f64 {
    fn write(&self, out: &mut Vec<u8>) {
        out.extend(self.to_bits().to_le_bytes());
    }

    fn read(from: &mut Reader) -> Result<Self, FormError> {
        let bytes: [u8; 8] = from.take(8)?.try_into().expect("eight bytes");
        Ok(f64::from_bits(u64::from_le_bytes(bytes)))
    }

    fn tree(&self) -> Tree {
        Tree::Float(*self)
    }

    fn of_tree(tree: &Tree) -> Result<Self, TreeError> {
        match tree {
            Tree::Float(float) => Ok(*float),
            Tree::Number(number) => Ok(*number as f64),
            _ => Err(TreeError::wanted("a number")),
        }
    }
}

/// A text's bytes, of any kind: a payload.
impl Form for Vec<u8> {
    fn write(&self, out: &mut Vec<u8>) {
        (self.len() as u64).write(out);
        out.extend(self);
    }

    fn read(from: &mut Reader) -> Result<Self, FormError> {
        let length = u64::read(from)?;
        let length = usize::try_from(length).map_err(|_| from.error("a text is longer than the bytes"))?;
        from.take(length).map(<[u8]>::to_vec)
    }

    fn tree(&self) -> Tree {
        Tree::Bytes(self.clone())
    }

    fn of_tree(tree: &Tree) -> Result<Self, TreeError> {
        match tree {
            Tree::Null => Ok(Vec::new()),
            Tree::Text(text) => Ok(text.clone().into_bytes()),
            Tree::Bytes(bytes) => Ok(bytes.clone()),
            _ => Err(TreeError::wanted("a text")),
        }
    }
}

/// A text in UTF-8, as all ids, names, headers, descriptions and causes are.
impl Form for String {
    fn write(&self, out: &mut Vec<u8>) {
        (self.len() as u64).write(out);
        out.extend(self.as_bytes());
    }

    fn read(from: &mut Reader) -> Result<Self, FormError> {
        let bytes = Vec::<u8>::read(from)?;
        String::from_utf8(bytes).map_err(|_| from.error("a text is not UTF-8"))
    }

    fn tree(&self) -> Tree {
        Tree::Text(self.clone())
    }

    fn of_tree(tree: &Tree) -> Result<Self, TreeError> {
        match tree {
            Tree::Text(text) => Ok(text.clone()),
            _ => Err(TreeError::wanted("a text")),
        }
    }
}

/// Optional: 0; or 1 and the value.
impl<T: Form> Form for Option<T> {
    fn write(&self, out: &mut Vec<u8>) {
        self.is_some().write(out);
        if let Some(value) = self {
            value.write(out);
        }
    }

    fn read(from: &mut Reader) -> Result<Self, FormError> {
        bool::read(from)?.then(|| T::read(from)).transpose()
    }

    fn tree(&self) -> Tree {
        self.as_ref().map_or(Tree::Null, T::tree)
    }

    fn of_tree(tree: &Tree) -> Result<Self, TreeError> {
        match tree {
            Tree::Null => Ok(None),
            _ => T::of_tree(tree).map(Some),
        }
    }
}

/// A list: its count, then its elements. A count beyond the bytes fails at the first that is missing.
impl<T: Form> Form for Vec<T> {
    fn write(&self, out: &mut Vec<u8>) {
        (self.len() as u64).write(out);
        self.iter().for_each(|element| element.write(out));
    }

    fn read(from: &mut Reader) -> Result<Self, FormError> {
        let count = u64::read(from)?;
        (0..count).map(|_| T::read(from)).collect()
    }

    fn tree(&self) -> Tree {
        Tree::List(self.iter().map(T::tree).collect())
    }

    fn of_tree(tree: &Tree) -> Result<Self, TreeError> {
        let numbered = |(i, element)| T::of_tree(element).map_err(|error| error.inside(format!("[{i}]")));
        match tree {
            Tree::Null => Ok(Vec::new()),
            Tree::List(elements) => elements.iter().enumerate().map(numbered).collect(),
            _ => Err(TreeError::wanted("a list")),
        }
    }
}

/// The byte 1 with which a card, a sheet and an overlay begin.
pub(crate) fn read_first(from: &mut Reader) -> Result<(), FormError> {
    match from.byte()? {
        1 => Ok(()),
        _ => Err(from.error("the first byte is not 1")),
    }
}

/// A struct whose form is that of its fields in order; `first 1` puts the byte 1 before them.
macro_rules! record {
    ($(#[$about:meta])* $name:ident $(first $first:literal)? {
        $($(#[$of_field:meta])* $field:ident: $kind:ty),* $(,)?
    }) => {
        $(#[$about])*
        #[derive(Clone, Debug, Default, PartialEq)]
        pub struct $name { $($(#[$of_field])* pub $field: $kind),* }

        impl $crate::form::Form for $name {
            fn write(&self, out: &mut Vec<u8>) {
                $(out.push($first);)?
                $(self.$field.write(out);)*
            }

            fn read(from: &mut $crate::form::Reader) -> Result<Self, $crate::form::FormError> {
                $(let _: u8 = $first; $crate::form::read_first(from)?;)?
                Ok($name { $($field: $crate::form::Form::read(from)?),* })
            }

            fn tree(&self) -> $crate::tree::Tree {
                $crate::tree::Tree::Record(vec![$((stringify!($field).into(), self.$field.tree())),*])
            }

            fn of_tree(tree: &$crate::tree::Tree) -> Result<Self, $crate::tree::TreeError> {
                let fields = tree.fields(&[$(stringify!($field)),*])?;
                Ok($name { $($field: fields.get(stringify!($field))?),* })
            }
        }
    };
}
pub(crate) use record;
