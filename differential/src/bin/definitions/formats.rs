//! Cases of crate formats: numbers written and read.
use crate::Cases::AtRandom;
use crate::{equation, Definition, Equation};
use differential::form::{Form, Reader};
use differential::gens::damaged;
use differential::literal::{list, Literal};
use differential::random::Random;

pub const DEFINITIONS: &[Definition] = &[
    Definition {
        name: "write_signed",
        of: "formats",
        preamble: "use Rattle.formats.specs.Format.{Format, signed, write}\n",
        cases: AtRandom(100, write_signed),
    },
    Definition {
        name: "read_number",
        of: "formats",
        preamble: "use Rattle.formats.specs.Format.{Format, number, read}\n",
        cases: AtRandom(200, read_number),
    },
];

fn write_signed(random: &mut Random) -> Equation {
    let number = random.bits().cast_signed() >> random.below(64);
    equation("write (signed (pos 0) (pos 0))", &[number.literal()], list(&number.written()))
}

fn read_number(random: &mut Random) -> Equation {
    let whole = (random.bits() >> random.below(64)).written();
    let bytes = if random.once_in(2) { damaged(random, whole) } else { whole };
    let mut reader = Reader(&bytes);
    let answer = u64::read(&mut reader);
    let right = answer.map_or("none".into(), |value| format!("some ({value}, {})", list(reader.0)));
    equation("read (number 0 0)", &[list(&bytes)], right)
}
