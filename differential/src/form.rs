//! The forms of document 01's "Cards and sheets": how each kind of value is written, and the strict
//! reading that takes no other bytes.

/// What is left to read.
pub struct Reader<'a>(pub &'a [u8]);

impl<'a> Reader<'a> {
    pub fn take(&mut self, count: usize) -> Option<&'a [u8]> {
        let (taken, left) = self.0.split_at_checked(count)?;
        self.0 = left;
        Some(taken)
    }

    fn byte(&mut self) -> Option<u8> {
        self.take(1).map(|taken| taken[0])
    }
}

pub trait Form: Sized {
    fn write(&self, out: &mut Vec<u8>);
    fn read(from: &mut Reader) -> Option<Self>;

    fn written(&self) -> Vec<u8> {
        let mut out = Vec::new();
        self.write(&mut out);
        out
    }

    /// The value that the bytes hold from the first to the last.
    fn of(bytes: &[u8]) -> Option<Self> {
        let mut reader = Reader(bytes);
        Self::read(&mut reader).filter(|_| reader.0.is_empty())
    }
}

/// A number: seven bits a byte, low first, shortest.
impl Form for u64 {
    fn write(&self, out: &mut Vec<u8>) {
        let mut rest = *self;
        while rest >= 128 {
            out.push(rest as u8 | 128);
            rest >>= 7;
        }
        out.push(rest as u8);
    }

    fn read(from: &mut Reader) -> Option<Self> {
        let mut value: u128 = 0;
        for group in 0..10 {
            let byte = from.byte()?;
            value |= u128::from(byte & 127) << (7 * group);
            if byte < 128 {
                let shortest = group == 0 || byte != 0;
                return u64::try_from(value).ok().filter(|_| shortest);
            }
        }
        None
    }
}

/// A signed number: 2n, or -2n - 1 below zero.
impl Form for i64 {
    fn write(&self, out: &mut Vec<u8>) {
        ((self << 1) ^ (self >> 63)).cast_unsigned().write(out);
    }

    fn read(from: &mut Reader) -> Option<Self> {
        let coded = u64::read(from)?;
        Some((coded >> 1).cast_signed() ^ -(coded & 1).cast_signed())
    }
}

/// A constant or choice of one byte: `LAST` is the largest.
#[derive(Clone, Copy, Debug, Default, PartialEq, Eq)]
pub struct Small<const LAST: u8>(pub u8);

impl<const LAST: u8> Form for Small<LAST> {
    fn write(&self, out: &mut Vec<u8>) {
        out.push(self.0);
    }

    fn read(from: &mut Reader) -> Option<Self> {
        from.byte().filter(|byte| *byte <= LAST).map(Small)
    }
}

impl Form for bool {
    fn write(&self, out: &mut Vec<u8>) {
        out.push(u8::from(*self));
    }

    fn read(from: &mut Reader) -> Option<Self> {
        Small::<1>::read(from).map(|flag| flag.0 == 1)
    }
}

/// The byte 1 with which a card, a sheet and an overlay begin.
#[derive(Clone, Copy, Debug, Default, PartialEq, Eq)]
pub struct One;

impl Form for One {
    fn write(&self, out: &mut Vec<u8>) {
        out.push(1);
    }

    fn read(from: &mut Reader) -> Option<Self> {
        from.byte().filter(|byte| *byte == 1).map(|_| One)
    }
}

/// A float as its 64 bits, which nothing here looks into.
#[derive(Clone, Copy, Debug, Default, PartialEq, Eq)]
pub struct Float(pub u64);

impl Form for Float {
    fn write(&self, out: &mut Vec<u8>) {
        out.extend(self.0.to_le_bytes());
    }

    fn read(from: &mut Reader) -> Option<Self> {
        from.take(8).map(|bytes| Float(u64::from_le_bytes(bytes.try_into().unwrap())))
    }
}

#[derive(Clone, Default, PartialEq, Eq, PartialOrd, Ord)]
pub struct Text(pub Vec<u8>);

impl Text {
    /// As a string, once question 5 has let it pass.
    pub fn string(&self) -> String {
        String::from_utf8(self.0.clone()).expect("a judged text")
    }
}

impl From<&str> for Text {
    fn from(text: &str) -> Self {
        Text(text.into())
    }
}

impl std::fmt::Debug for Text {
    fn fmt(&self, f: &mut std::fmt::Formatter) -> std::fmt::Result {
        write!(f, "\"{}\"", self.0.escape_ascii())
    }
}

impl Form for Text {
    fn write(&self, out: &mut Vec<u8>) {
        (self.0.len() as u64).write(out);
        out.extend(&self.0);
    }

    fn read(from: &mut Reader) -> Option<Self> {
        let length = u64::read(from)?;
        from.take(usize::try_from(length).ok()?).map(|bytes| Text(bytes.into()))
    }
}

impl<T: Form> Form for Option<T> {
    fn write(&self, out: &mut Vec<u8>) {
        self.is_some().write(out);
        if let Some(value) = self {
            value.write(out);
        }
    }

    fn read(from: &mut Reader) -> Option<Self> {
        if bool::read(from)? {
            T::read(from).map(Some)
        } else {
            Some(None)
        }
    }
}

/// A list: its count, then its elements. A count beyond the bytes fails at the first that is missing.
impl<T: Form> Form for Vec<T> {
    fn write(&self, out: &mut Vec<u8>) {
        (self.len() as u64).write(out);
        self.iter().for_each(|element| element.write(out));
    }

    fn read(from: &mut Reader) -> Option<Self> {
        let count = u64::read(from)?;
        (0..count).map(|_| T::read(from)).collect()
    }
}

/// A struct whose form is that of its fields in order.
macro_rules! record {
    ($(#[$about:meta])* $name:ident { $($field:ident: $kind:ty),* $(,)? }) => {
        $(#[$about])*
        #[derive(Clone, Debug, Default, PartialEq)]
        pub struct $name { $(pub $field: $kind),* }

        impl $crate::form::Form for $name {
            fn write(&self, out: &mut Vec<u8>) {
                $(self.$field.write(out);)*
            }

            fn read(from: &mut $crate::form::Reader) -> Option<Self> {
                Some($name { $($field: $crate::form::Form::read(from)?),* })
            }
        }

        impl $crate::literal::Literal for $name {
            fn literal(&self) -> String {
                $crate::literal::pairs(&[$($crate::literal::Literal::literal(&self.$field)),*])
            }
        }
    };
}
pub(crate) use record;
