//! A value as a tree of names and plain values, between the forms and JSON.
use crate::form::Form;
use std::fmt;

#[derive(Clone, Debug, PartialEq)]
pub enum Tree {
    Null,
    Flag(bool),
    Number(i128),
    Float(f64),
    Text(String),
    Bytes(Vec<u8>),
    List(Vec<Tree>),
    Record(Vec<(String, Tree)>),
}

/// A tree that is not one of the wanted kind: what was wanted, and where.
#[derive(Clone, Debug, PartialEq, Eq)]
pub struct TreeError {
    place: Vec<String>,
    what: String,
}

impl TreeError {
    pub(crate) fn wanted(what: &str) -> Self {
        TreeError { place: Vec::new(), what: format!("there should be {what}") }
    }

    pub(crate) fn inside(mut self, name: String) -> Self {
        self.place.push(name);
        self
    }
}

impl fmt::Display for TreeError {
    fn fmt(&self, f: &mut fmt::Formatter) -> fmt::Result {
        let place: Vec<_> = self.place.iter().rev().map(String::as_str).collect();
        write!(f, "at {}: {}", if place.is_empty() { "the top".into() } else { place.join(".") }, self.what)
    }
}

impl std::error::Error for TreeError {}

/// A record's fields, by name.
pub(crate) struct Fields<'a>(&'a [(String, Tree)]);

impl Fields<'_> {
    /// A missing field is read as an absent value: fine for optional values, lists and payloads.
    pub(crate) fn get<T: Form>(&self, name: &'static str) -> Result<T, TreeError> {
        let tree = self.0.iter().find(|(field, _)| field == name).map_or(&Tree::Null, |(_, tree)| tree);
        T::of_tree(tree).map_err(|error| error.inside(name.into()))
    }
}

impl Tree {
    pub(crate) fn number<T: TryFrom<i128>>(&self, what: &str) -> Result<T, TreeError> {
        match self {
            Tree::Number(number) => T::try_from(*number).map_err(|_| TreeError::wanted(what)),
            _ => Err(TreeError::wanted(what)),
        }
    }

    /// The fields of a record that has no others than these: a slip in a name is not passed over.
    pub(crate) fn fields(&self, names: &[&str]) -> Result<Fields<'_>, TreeError> {
        let Tree::Record(fields) = self else {
            return Err(TreeError::wanted(&format!("a record of {}", names.join(", "))));
        };
        match fields.iter().find(|(name, _)| !names.contains(&name.as_str())) {
            Some((name, _)) => Err(TreeError::wanted(&format!("no '{name}', only {}", names.join(", ")))),
            None => Ok(Fields(fields)),
        }
    }
}
