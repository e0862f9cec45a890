//! `std` with one name changed: `collections::HashMap` is the ordered `BTreeMap`, as document 01 has
//! the oracle. The comparison's crate calls this crate `std`, so the original compiles unchanged.
pub use ::std::*;

pub mod collections {
    pub use ::std::collections::{BTreeMap, BTreeMap as HashMap, BTreeSet, HashSet};
}
