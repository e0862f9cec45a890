//! Trees as JSON, either way: fields in the order of their form, floats bit for bit, payloads that are no text in
//! hexadecimal digits.
use mipsuqal::Tree;
use serde::ser::{Serialize, SerializeMap, Serializer};
use serde_json::Value;

struct Json<'a>(&'a Tree);

pub fn text(tree: &Tree) -> String {
    serde_json::to_string_pretty(&Json(tree)).expect("a tree has only texts for names")
}

/// What JSON has no text for stands under one name.
fn marked<S: Serializer>(to: S, name: &str, digits: String) -> Result<S::Ok, S::Error> {
    let mut map = to.serialize_map(Some(1))?;
    map.serialize_entry(name, &digits)?;
    map.end()
}

fn hex(bytes: &[u8]) -> String {
    bytes.iter().map(|byte| format!("{byte:02x}")).collect()
}

fn unhex(digits: &str) -> Option<Vec<u8>> {
    let pair = |two: &[u8]| u8::from_str_radix(std::str::from_utf8(two).ok()?, 16).ok();
    let clean = digits.len().is_multiple_of(2) && digits.bytes().all(|digit| digit.is_ascii_hexdigit());
    clean.then(|| digits.as_bytes().chunks(2).map(pair).collect())?
}

impl Serialize for Json<'_> {
    fn serialize<S: Serializer>(&self, to: S) -> Result<S::Ok, S::Error> {
        match self.0 {
            Tree::Null => to.serialize_unit(),
            Tree::Flag(flag) => to.serialize_bool(*flag),
            Tree::Number(number) => match u64::try_from(*number) {
                Ok(number) => to.serialize_u64(number),
                Err(_) => to.serialize_i64(i64::try_from(*number).expect("a number of 64 bits")),
            },
            Tree::Float(float) if float.is_finite() => to.serialize_f64(*float),
            Tree::Float(float) => marked(to, "bits", hex(&float.to_bits().to_be_bytes())),
            Tree::Text(text) => to.serialize_str(text),
            Tree::Bytes(bytes) => match std::str::from_utf8(bytes) {
                Ok(text) => to.serialize_str(text),
                Err(_) => marked(to, "hex", hex(bytes)),
            },
            Tree::List(elements) => to.collect_seq(elements.iter().map(Json)),
            Tree::Record(fields) => to.collect_map(fields.iter().map(|(name, tree)| (name, Json(tree)))),
        }
    }
}

/// JSON's text as a tree, or why it is none.
pub fn tree(text: &[u8]) -> Result<Tree, String> {
    let value: Value = serde_json::from_slice(text).map_err(|error| format!("no JSON: {error}"))?;
    plain(value)
}

fn plain(value: Value) -> Result<Tree, String> {
    Ok(match value {
        Value::Null => Tree::Null,
        Value::Bool(flag) => Tree::Flag(flag),
        Value::Number(number) => match (number.as_u64(), number.as_i64(), number.as_f64()) {
            (Some(whole), _, _) => Tree::Number(whole.into()),
            (_, Some(whole), _) => Tree::Number(whole.into()),
            (_, _, float) => Tree::Float(float.ok_or("a number beyond a float")?),
        },
        Value::String(text) => Tree::Text(text),
        Value::Array(elements) => Tree::List(elements.into_iter().map(plain).collect::<Result<_, _>>()?),
        Value::Object(fields) => record(fields)?,
    })
}

fn record(fields: serde_json::Map<String, Value>) -> Result<Tree, String> {
    let only = |name: &str| fields.get(name).filter(|_| fields.len() == 1).and_then(Value::as_str);
    if let Some(digits) = only("hex") {
        return unhex(digits).map(Tree::Bytes).ok_or_else(|| format!("'{digits}' are no hexadecimal digits"));
    }
    if let Some(digits) = only("bits") {
        let bits = Some(digits).filter(|digits| digits.len() == 16).and_then(unhex);
        let bits: [u8; 8] =
            bits.and_then(|bits| bits.try_into().ok()).ok_or("'bits' wants 16 hexadecimal digits")?;
        return Ok(Tree::Float(f64::from_bits(u64::from_be_bytes(bits))));
    }
    let named = |(name, value)| plain(value).map(|tree| (name, tree));
    Ok(Tree::Record(fields.into_iter().map(named).collect::<Result<_, _>>()?))
}

#[cfg(test)]
mod tests {
    use super::*;
    use mipsuqal::{Card, Form, Leg, Transit, Walk};

    #[test]
    fn cards_come_back_bit_for_bit() {
        let floats = [49.1669, -0.0, 5e-324, f64::MAX, 0.1 + 0.2, 3.0, f64::INFINITY];
        for float in floats {
            let transit = Transit {
                latitude: Some(float),
                updated: Some(i64::MIN),
                from_sequence: u64::MAX,
                payload: vec![0, 255],
                short_name: "\"é\n".into(),
                ..Transit::default()
            };
            let legs = vec![Leg::Walk(Walk { payload: b"8 min".into() }), Leg::Transit(Box::new(transit))];
            let card = Card { legs, ..Card::default() };
            let read = Card::of_tree(&tree(text(&card.tree()).as_bytes()).unwrap()).unwrap();
            assert_eq!(read.encode(), card.encode(), "{float}");
        }
    }

    #[test]
    fn a_float_that_is_no_number_keeps_its_bits() {
        let odd = f64::from_bits(0x7ff8_0000_dead_beef);
        let read = f64::of_tree(&tree(text(&odd.tree()).as_bytes()).unwrap()).unwrap();
        assert_eq!(read.to_bits(), odd.to_bits());
        assert!(tree(br#"{"bits": "7ff8"}"#).is_err());
        assert!(tree(br#"{"hex": "+1"}"#).is_err());
    }
}
