//! The tables of the alert rules, and for each row a text that it alone makes a hit, and the same text with a
//! letter changed that is none.
use crate::alerts::OF_APPLIES;
use crate::Cases::Listed;
use crate::{equation, Definition, Equation};
use differential::host;
use differential::literal::{list, option, pairs, truth, Literal};
use differential::papers::Alert;
use differential::routing::journey::parts;
use differential::tables::*;

pub const DEFINITIONS: &[Definition] = &[
    Definition {
        name: "tables",
        preamble: "use Rattle.alerts.specs.Applies.{
  rail_modes, accents, letters, numerals, trams, letter_rows, number_rows, bare_rows, markers, needle_rows, primary_rows,
}
use Rattle.alerts.proofs.Laws.LineCodes.{listed}
",
        cases: Listed(tables),
        ..OF_APPLIES
    },
    Definition { name: "table_rows", cases: Listed(table_rows), ..OF_APPLIES },
];

/// That the tables are the definitions'.
fn tables() -> Vec<Equation> {
    let same = |name: &str, rows: String| equation(name, &[], rows);
    let quoted = |rows: &[Around]| {
        let rows = rows.iter().map(|(before, after)| format!("({before:?}, {after:?}) ∷ "));
        format!("({}[])", rows.collect::<String>())
    };
    let accents = ACCENTS.iter().map(|(plain, letters)| {
        let codes: Vec<_> = letters.chars().map(u64::from).collect();
        pairs(&[u64::from(*plain).literal(), list(&codes)]) + " ∷ "
    });
    let products = PRODUCTS.iter().map(|(code, line)| pairs(&[code.literal(), line.literal()]) + " ∷ ");
    vec![
        same("rail_modes", list(MODES)),
        same("accents", format!("({}[])", accents.collect::<String>())),
        same("letters", list(LETTERS)),
        same("numerals", list(NUMERALS)),
        same("trams", list(TRAMS)),
        same("letter_rows", quoted(LETTER_ROWS)),
        same("number_rows", quoted(NUMBER_ROWS)),
        same("bare_rows", quoted(BARE_ROWS)),
        same("markers", list(MARKERS)),
        same("needle_rows", quoted(NEEDLE_ROWS)),
        same("primary_rows", quoted(PRIMARY_ROWS)),
        same("listed", format!("({}[])", products.collect::<String>())),
    ]
}

/// A table: the rows that a text hits, and the case of a text, with whether the original says yes.
struct Table<'a> {
    hits: &'a dyn Fn(&str) -> Vec<String>,
    case: &'a dyn Fn(&str) -> (Equation, bool),
}

/// The cases, and the rows that are not covered as they should be.
#[derive(Default)]
struct Rows {
    cases: Vec<Equation>,
    rows: usize,
    not_hit: Vec<String>,
    not_missed: Vec<String>,
}

impl Rows {
    /// The row in a text that hits it, and besides it only rows that it always comes with.
    fn row(&mut self, table: &Table, row: &str, always: &[String], text: &str) {
        let miss = near_miss(table.hits, text);
        self.pair(table, row, always, text, miss.as_deref().unwrap_or(text));
    }

    fn pair(&mut self, table: &Table, row: &str, always: &[String], hit: &str, miss: &str) {
        self.rows += 1;
        let mut due = [always, &[row.into()]].concat();
        let mut hits = (table.hits)(hit);
        due.sort();
        hits.sort();
        let (case, yes) = (table.case)(hit);
        self.cases.push(case);
        if hits != due || !yes {
            self.not_hit.push(format!("{row}: {hit:?} hits {hits:?}"));
        }
        let (case, yes) = (table.case)(miss);
        self.cases.push(case);
        if !(table.hits)(miss).is_empty() || yes {
            self.not_missed.push(format!("{row}: {miss:?}"));
        }
    }
}

/// The text with one letter changed so that it hits no row.
fn near_miss(hits: &dyn Fn(&str) -> Vec<String>, text: &str) -> Option<String> {
    let other = |letter: char| match letter {
        '!'..='~' | ' ' => '#',
        _ => (letter..).skip(1).find(|next| folded(&next.to_string()).is_empty()).expect("a letter"),
    };
    let changed = text.char_indices().map(|(place, letter)| {
        let rest = &text[place + letter.len_utf8()..];
        format!("{}{}{rest}", &text[..place], other(letter))
    });
    changed.into_iter().find(|text| hits(text).is_empty())
}

fn table_rows() -> Vec<Equation> {
    let mut rows = Rows::default();
    words(&mut rows);
    line_names(&mut rows);
    advice(&mut rows);
    subjects(&mut rows);
    road_traffic(&mut rows);
    let (hit, missed) = (rows.rows - rows.not_hit.len(), rows.rows - rows.not_missed.len());
    println!("alert tables: rows hit {hit} of {0}, missed {missed} of {0}", rows.rows);
    if !rows.not_hit.is_empty() || !rows.not_missed.is_empty() {
        println!("not hit: {:#?}\nnot missed: {:#?}", rows.not_hit, rows.not_missed);
        std::process::exit(1);
    }
    rows.cases
}

/// Modes, product codes and accented letters.
fn words(rows: &mut Rows) {
    let is = |word: &str, known: &str| word.to_ascii_uppercase() == known;
    let modes = Table {
        hits: &|text| MODES.iter().filter(|mode| is(text, mode)).map(|mode| mode.to_string()).collect(),
        case: &|text| {
            let yes = parts::is_rail_like_mode(text);
            (equation("is_rail_like_mode", &[text.literal()], truth(yes)), yes)
        },
    };
    MODES.iter().for_each(|mode| rows.row(&modes, mode, &[], mode));
    let products = Table {
        hits: &|text| {
            PRODUCTS.iter().filter(|(code, _)| is(text, code)).map(|(code, _)| code.to_string()).collect()
        },
        case: &|text| {
            let line = parts::idfm_product_to_short(text);
            let right = option(&line);
            let known = PRODUCTS.iter().find(|(code, _)| is(text, code)).map(|(_, line)| line.to_string());
            assert_eq!(line, known);
            (equation("idfm_product_to_short", &[text.literal()], right), line.is_some())
        },
    };
    PRODUCTS.iter().for_each(|(code, _)| rows.row(&products, code, &[], code));
    let accents = Table {
        hits: &folded,
        case: &|text| {
            let plain = parts::fold_alert_blob(text);
            (equation("fold_alert_blob", &[text.literal()], plain.literal()), plain.is_ascii())
        },
    };
    for letter in ACCENTS.iter().flat_map(|(_, letters)| letters.chars()) {
        rows.row(&accents, &letter.to_string(), &[], &letter.to_string());
    }
}

/// Each name of a line by each row that names it.
fn line_names(rows: &mut Rows) {
    for name in [LETTERS, NUMERALS, TRAMS].concat() {
        let table = Table {
            hits: &|text| line_rows(text, name),
            case: &|text| {
                let named = parts::commercial_lines_in_text(text);
                let case = equation("commercial_lines_in_text", &[text.literal()], list(&named));
                (case, named.iter().any(|line| line == name))
            },
        };
        let rows_of = |rows: &[Around]| -> Vec<String> { rows.iter().map(|row| around(row, name)).collect() };
        if LETTERS.contains(&name) {
            rows_of(LETTER_ROWS).iter().for_each(|row| rows.row(&table, row, &[], &format!("{row}X")));
        } else if TRAMS.contains(&name) {
            rows.row(&table, &format!("{name} and TRAM"), &[], &format!("TRAM-{name}X"));
            rows.row(&table, &format!("{name} and  {name}"), &[], &format!("Z {name}X"));
        } else {
            rows_of(NUMBER_ROWS).iter().for_each(|row| rows.row(&table, row, &[], &format!("{row}X")));
            for word in BESIDE_NUMERAL {
                for row in rows_of(BARE_ROWS) {
                    rows.row(&table, &format!("{row} and {word}"), &[], &format!("{word}X{row}X"));
                }
                rows.row(&table, &format!(" {name} at the end and {word}"), &[], &format!("{word}X {name}"));
            }
        }
    }
}

/// Each marker near each needle, and beside each word; and the window's edges.
fn advice(rows: &mut Rows) {
    let table = Table {
        hits: &|text| secondary(text, "5"),
        case: &|text| {
            let yes = parts::is_secondary_line_context(text, "5");
            (equation("is_secondary_line_context", &[text.literal(), "5".literal()], truth(yes)), yes)
        },
    };
    let always = |marker: &str, place: String| -> Vec<String> {
        (marker == "PRIVILEGIEZ").then(|| format!("PRIVILEGIE {place}")).into_iter().collect()
    };
    for marker in MARKERS {
        for needle in NEEDLE_ROWS.iter().map(|row| around(row, "5")) {
            let always = always(marker, format!("near {needle}"));
            rows.row(&table, &format!("{marker} near {needle}"), &always, &format!("{marker}-{needle}X"));
        }
        for word in BESIDE_ADVICE {
            let always = always(marker, format!("and {word}"));
            rows.row(&table, &format!("{marker} and {word}"), &always, &format!("{word}-{marker}-5"));
        }
    }
    let marker = "SATURATION";
    for word in BESIDE_ADVICE {
        let named = |name: &str| format!("{word}-{marker}-{name}");
        rows.pair(&table, &format!("{marker} and {word}"), &[], &named("5"), &named("6"));
    }
    for needle in NEEDLE_ROWS.iter().map(|row| around(row, "5")) {
        let row = format!("{marker} near {needle}");
        let before = |letters: usize| format!("{marker}{}{needle}X", "-".repeat(letters - marker.len()));
        rows.pair(&table, &row, &[], &before(48), &before(49));
        let behind = |letters: usize| format!("{needle}{}{marker}", "X".repeat(letters - marker.len()));
        rows.pair(&table, &row, &[], &behind(24), &behind(25));
    }
}

fn subjects(rows: &mut Rows) {
    for name in ["5", "B"] {
        let table = Table {
            hits: &|text| primary(text, name),
            case: &|text| {
                let yes = parts::is_primary_context(text, name);
                (equation("is_primary_context", &[text.literal(), name.literal()], truth(yes)), yes)
            },
        };
        for row in PRIMARY_ROWS.iter().map(|row| around(row, name)) {
            let always = row.starts_with("TRAVAUX").then(|| format!("RER {name}"));
            rows.row(&table, &row, &Vec::from_iter(always), &format!("Z{row}Z"));
        }
        for row in BEGINNINGS.iter().map(|word| format!("{word}{name}")) {
            let always = (!row.starts_with("LIGNE")).then(|| row.clone());
            rows.row(&table, &format!("{row} first"), &Vec::from_iter(always), &format!("{row}Z"));
        }
    }
}

fn road_traffic(rows: &mut Rows) {
    let table = Table {
        hits: &road,
        case: &|text| {
            let alert = Alert { header: Some(text.into()), ..Alert::default() };
            let yes = parts::is_road_traffic_alert(&host::alert(&alert));
            (equation("is_road_traffic_alert", &[alert.literal()], truth(yes)), yes)
        },
    };
    rows.row(&table, ROAD[0], &[], ROAD[0]);
    rows.row(&table, ROAD[1], &[ROAD[0].into()], ROAD[1]);
    for moved in MOVED {
        for traffic in TRAFFIC {
            let text = format!("ARRET {moved} {traffic}");
            let row = format!("{moved} and {traffic}");
            // A word that holds another one is never there without it.
            let mut always = road(&text);
            always.retain(|other| *other != row && row.len() > other.len());
            rows.row(&table, &row, &always, &text);
        }
    }
}
