//! Files that go in: a message as it is; a card or a sheet in document 01's bytes or as JSON.
use crate::fault::Fault;
use crate::json;
use mipsuqal::Form;
use std::fs;
use std::path::Path;

pub fn file(path: &Path) -> Result<Vec<u8>, Fault> {
    fs::read(path).map_err(|error| Fault::Unread(path.into(), error))
}

/// A JSON file begins with '{'; document 01's bytes begin with 1.
fn is_json(bytes: &[u8]) -> bool {
    bytes.iter().find(|byte| !byte.is_ascii_whitespace()) == Some(&b'{')
}

/// A card's or a sheet's bytes. Bytes go on as they are, for the call to judge.
pub fn form<T: Form>(path: &Path) -> Result<Vec<u8>, Fault> {
    let bytes = file(path)?;
    if !is_json(&bytes) {
        return Ok(bytes);
    }
    let unfit = |why: String| Fault::Unfit(path.into(), why);
    let tree = json::tree(&bytes).map_err(unfit)?;
    T::of_tree(&tree).map(|value| value.encode()).map_err(|error| unfit(error.to_string()))
}

/// The card or sheet itself.
pub fn value<T: Form>(path: &Path) -> Result<T, Fault> {
    T::decode(&form::<T>(path)?).map_err(|error| Fault::Unfit(path.into(), error.to_string()))
}
