//! The tables of the alert rules, read a second time, and the rows of them that a text hits.

/// A text before a line's name and one after it.
pub type Around = (&'static str, &'static str);

pub const MODES: &[&str] = &["RAIL", "TRAIN", "METRO", "SUBWAY", "TRAM", "TRAMWAY", "RER"];
pub const PRODUCTS: &[(&str, &str)] = &[
    ("C01742", "A"),
    ("C01743", "B"),
    ("C01727", "C"),
    ("C01728", "D"),
    ("C01729", "E"),
    ("C01371", "1"),
    ("C01372", "2"),
    ("C01373", "3"),
    ("C01374", "4"),
    ("C01375", "5"),
    ("C01376", "6"),
    ("C01377", "7"),
    ("C01378", "8"),
    ("C01379", "9"),
    ("C01380", "10"),
    ("C01381", "11"),
    ("C01382", "12"),
    ("C01383", "13"),
    ("C01384", "14"),
    ("C01389", "T1"),
    ("C01390", "T2"),
    ("C01391", "T3a"),
    ("C01679", "T3b"),
];
pub const ACCENTS: &[(char, &str)] =
    &[('A', "àâäáÀÂÄÁ"), ('E', "éèêëÉÈÊË"), ('I', "îïíÎÏÍ"), ('O', "ôöóÔÖÓ"), ('U', "ùûüúÙÛÜÚ"), ('C', "çÇ")];
pub const LETTERS: &[&str] = &["A", "B", "C", "D", "E"];
pub const NUMERALS: &[&str] = &["1", "2", "3", "4", "5", "6", "7", "8", "9", "10", "11", "12", "13", "14"];
pub const TRAMS: &[&str] =
    &["T1", "T2", "T3", "T4", "T5", "T6", "T7", "T8", "T9", "T10", "T11", "T12", "T13"];
pub const LETTER_ROWS: &[Around] = &[("RER ", ""), ("RER", "")];
pub const NUMBER_ROWS: &[Around] = &[("METRO ", ""), ("METRO", ""), ("LIGNE ", ""), ("LIGNES ", "")];
pub const BARE_ROWS: &[Around] = &[(" ", " "), (" ", "."), (" ", ","), ("ET ", "")];
pub const NEEDLE_ROWS: &[Around] =
    &[("LIGNE ", ""), ("LIGNES ", ""), ("METRO ", ""), (" ET ", ""), (" ", " "), (" ", ".")];
pub const PRIMARY_ROWS: &[Around] = &[
    ("RER ", ""),
    ("RER", ""),
    ("METRO ", ""),
    ("TRAVAUX SUR LES RER ", ""),
    ("TRAVAUX SUR LE RER ", ""),
    ("INCIDENT LIGNE ", ""),
    ("LIGNE ", " :"),
    ("LIGNE ", " -"),
    ("LIGNE ", " INTERRUPT"),
    ("LIGNE ", " TRAFIC"),
];
pub const MARKERS: &[&str] = &[
    "PRIVILEGIE",
    "PRIVILEGIEZ",
    "SATURATION",
    "REPORTEZ",
    "REPORTER",
    "UTILISEZ",
    "EMPRUNTEZ",
    "EN DIRECTION DE LA LIGNE",
    "VERS LA LIGNE",
    "CORRESPONDANCE AVEC",
];
/// The words that a numeral by itself, a line named as advice, a first word and road traffic have beside them.
pub const BESIDE_NUMERAL: &[&str] = &["LIGNE", "METRO"];
pub const BESIDE_ADVICE: &[&str] = &["RER ", "TRAVAUX SUR"];
pub const BEGINNINGS: &[&str] = &["LIGNE ", "METRO ", "RER "];
pub const ROAD: &[&str] = &["TRAFIC ROUTIER", "INFO TRAFIC ROUTIER"];
pub const MOVED: &[&str] = &["DEPLACE", "DÉPLACÉ", "DEPLAC"];
pub const TRAFFIC: &[&str] = &["CIRCULATION", "SENS DE CIRCULATION"];

pub fn around(row: &Around, name: &str) -> String {
    [row.0, name, row.1].concat()
}

/// The rows of a table that a text has, with the line's name.
pub fn within(rows: &[Around], text: &str, name: &str) -> Vec<String> {
    rows.iter().map(|row| around(row, name)).filter(|pattern| text.contains(pattern)).collect()
}

pub fn line_rows(text: &str, name: &str) -> Vec<String> {
    if LETTERS.contains(&name) {
        return within(LETTER_ROWS, text, name);
    }
    if TRAMS.contains(&name) {
        let beside = ["TRAM".into(), format!(" {name}")];
        let beside = beside.iter().filter(|word| text.contains(name) && text.contains(*word));
        return beside.map(|word| format!("{name} and {word}")).collect();
    }
    let mut bare = within(BARE_ROWS, text, name);
    bare.extend(text.ends_with(&format!(" {name}")).then(|| format!(" {name} at the end")));
    let mut rows = within(NUMBER_ROWS, text, name);
    for word in BESIDE_NUMERAL.iter().filter(|word| text.contains(*word)) {
        rows.extend(bare.iter().map(|row| format!("{row} and {word}")));
    }
    rows
}

/// The lines that a folded text names.
pub fn lines(text: &str) -> Vec<String> {
    let names = [LETTERS, NUMERALS, TRAMS].concat();
    names.iter().filter(|name| !line_rows(text, name).is_empty()).map(|name| name.to_string()).collect()
}

/// The rows by which a line is named as advice.
pub fn secondary(text: &str, name: &str) -> Vec<String> {
    let mut rows = Vec::new();
    for needle in NEEDLE_ROWS.iter().map(|row| around(row, name)) {
        if let Some(place) = text.find(&needle) {
            let end = text.len().min(place + needle.len() + 24);
            let window = &text[place.saturating_sub(48)..end];
            let markers = MARKERS.iter().filter(|marker| window.contains(*marker));
            rows.extend(markers.map(|marker| format!("{marker} near {needle}")));
        }
    }
    for word in BESIDE_ADVICE.iter().filter(|word| text.contains(*word) && text.contains(name)) {
        let markers = MARKERS.iter().filter(|marker| text.contains(*marker));
        rows.extend(markers.map(|marker| format!("{marker} and {word}")));
    }
    rows
}

/// The rows by which a line is what a text is about.
pub fn primary(text: &str, name: &str) -> Vec<String> {
    let mut rows = within(PRIMARY_ROWS, text, name);
    let beginnings = BEGINNINGS.iter().map(|word| format!("{word}{name}"));
    rows.extend(beginnings.filter(|word| text.starts_with(word)).map(|word| format!("{word} first")));
    rows
}

pub fn road(text: &str) -> Vec<String> {
    let has = |words: &[&'static str]| -> Vec<&'static str> {
        words.iter().copied().filter(|word| text.contains(word)).collect()
    };
    let mut rows: Vec<String> = has(ROAD).iter().map(|word| word.to_string()).collect();
    if text.contains("ARRET") {
        for moved in has(MOVED) {
            rows.extend(has(TRAFFIC).iter().map(|traffic| format!("{moved} and {traffic}")));
        }
    }
    rows
}

pub fn folded(text: &str) -> Vec<String> {
    let known = |letter: &char| ACCENTS.iter().any(|(_, letters)| letters.contains(*letter));
    text.chars().filter(known).map(String::from).collect()
}
