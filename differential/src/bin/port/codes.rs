//! Product codes beside the original's `idfm_product_to_short`: C and c before every number of 4 to 7 digits, and texts
//! by chance, most of them near a code.
use differential::gens::damaged;
use differential::port::line;
use differential::random::Random;
use differential::routing::journey::parts::idfm_product_to_short;
use differential::tables::PRODUCTS;

const TEXTS: usize = 200_000;

/// What the papers name: around the run of lines, and codes with a digit more, a digit less or none.
const NAMED: &[&str] = &[
    "", "C", "C01370", "C01371", "c01384", "C01385", "C1371", "C001371", "C013710", "C0137:", "C0137/",
    "C0137 ", " C01371", "D01371", "C00000", "c01742", "C01679", "Ç01371", "C0137１",
];

#[derive(Default)]
struct Tally {
    texts: usize,
    lines: usize,
    differ: usize,
}

impl Tally {
    fn compare(&mut self, code: &str) {
        let mut out = [b'-'; 3];
        let length = line(&mut out, code.as_bytes());
        let original = idfm_product_to_short(code).unwrap_or_default();
        self.texts += 1;
        self.lines += usize::from(!original.is_empty());
        if out.get(..length) != Some(original.as_bytes()) {
            self.differ += 1;
            println!("port: {code:?}: {length} bytes of {out:?}, the original {original:?}");
        }
    }
}

/// How many are answered otherwise. A buffer of two bytes has no room for a name.
pub fn run(seed: u64) -> usize {
    let mut random = Random::new(seed);
    let mut tally = Tally::default();
    for digits in 4..=7 {
        for number in 0..10_usize.pow(digits) {
            let number = format!("{number:0width$}", width = digits as usize);
            tally.compare(&format!("C{number}"));
            tally.compare(&format!("c{number}"));
        }
    }
    NAMED.iter().for_each(|code| tally.compare(code));
    (0..TEXTS).for_each(|_| tally.compare(&text(&mut random)));
    tally.differ += usize::from(line(&mut [0; 2], b"C01371") != 4);
    println!("port: {} product codes: {} have a line; {} otherwise", tally.texts, tally.lines, tally.differ);
    tally.differ + usize::from(tally.lines < 2 * PRODUCTS.len())
}

/// A code with a byte changed, or with others around it; or any text.
fn text(random: &mut Random) -> String {
    let code = random.pick(PRODUCTS).0;
    let bytes = match random.below(4) {
        0 => random.list(9, |random| random.bits() as u8),
        1 => [code.as_bytes(), &random.list(2, |random| random.bits() as u8)].concat(),
        _ => damaged(random, code.to_ascii_lowercase().into_bytes()),
    };
    String::from_utf8_lossy(&bytes).into_owned()
}
