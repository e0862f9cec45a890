//! Values as antt terms, in the shapes that the definitions have: a value of a format is nested pairs
//! to the right, an optional one is `inl tt` or `inr`, a flag is 0 or 1, a float the number of its bits, a
//! text a list of bytes.
use crate::form::{Float, One, Small, Text};
use crate::papers::Leg;

pub trait Literal {
    fn literal(&self) -> String;
}

/// A truth of type Bool, which is not a format's flag.
pub fn truth(holds: bool) -> String {
    holds.to_string()
}

/// An answer of the library's Option, which is not a format's optional value.
pub fn option<T: Literal>(answer: &Option<T>) -> String {
    answer.as_ref().map_or("none".into(), |value| format!("(some {})", value.literal()))
}

pub fn list<T: Literal>(elements: &[T]) -> String {
    let elements: String = elements.iter().map(|element| element.literal() + " ∷ ").collect();
    format!("({elements}[])")
}

pub fn pairs(parts: &[String]) -> String {
    match parts {
        [part] => part.clone(),
        [part, rest @ ..] => format!("({part}, {})", pairs(rest)),
        [] => unreachable!("a record has fields"),
    }
}

impl Literal for u64 {
    fn literal(&self) -> String {
        self.to_string()
    }
}

impl Literal for u8 {
    fn literal(&self) -> String {
        self.to_string()
    }
}

impl Literal for i64 {
    fn literal(&self) -> String {
        if *self >= 0 {
            format!("(pos {self})")
        } else {
            format!("(negsuc {})", -(self + 1))
        }
    }
}

impl Literal for bool {
    fn literal(&self) -> String {
        u8::from(*self).literal()
    }
}

impl<const LAST: u8> Literal for Small<LAST> {
    fn literal(&self) -> String {
        self.0.literal()
    }
}

impl Literal for One {
    fn literal(&self) -> String {
        "tt".into()
    }
}

impl Literal for Float {
    fn literal(&self) -> String {
        self.0.literal()
    }
}

impl Literal for Text {
    fn literal(&self) -> String {
        list(&self.0)
    }
}

impl Literal for &str {
    fn literal(&self) -> String {
        list(self.as_bytes())
    }
}

impl Literal for String {
    fn literal(&self) -> String {
        list(self.as_bytes())
    }
}

impl<T: Literal> Literal for Option<T> {
    fn literal(&self) -> String {
        self.as_ref().map_or("(inl tt)".into(), |value| format!("(inr {})", value.literal()))
    }
}

impl<T: Literal> Literal for Vec<T> {
    fn literal(&self) -> String {
        list(self)
    }
}

impl Literal for Leg {
    fn literal(&self) -> String {
        match self {
            Leg::Walk(payload) => format!("(inl {})", payload.literal()),
            Leg::Transit(leg) => format!("(inr {})", leg.literal()),
        }
    }
}
