//! Where cards and sheets end, whatever follows: by the library and by the second reading.
use differential::form::{Form, Reader};
use differential::gens::{damaged, wild_alert_sheet, wild_card, wild_vehicle_sheet};
use differential::layout::used;
use differential::lent;
use differential::papers::{AlertSheet, Card, VehicleSheet};
use differential::random::Random;

const INPUTS: usize = 100_000;

/// A card, an alert sheet, a vehicle sheet, and no kind.
const KINDS: u32 = 4;

/// How many have another end. It counts too where no form of many ended with a zero of its own: trimming zeros would
/// pass then.
pub fn run(seed: u64) -> usize {
    let mut random = Random::new(seed);
    let (mut whole, mut with_zeros, mut differ) = (0, 0, 0);
    for turn in 0..INPUTS {
        let bytes = input(&mut random, turn);
        for kind in 0..KINDS {
            let expected = expected(kind, &bytes);
            whole += usize::from(expected > 0);
            with_zeros += usize::from(used(&bytes[..expected]).len() < expected);
            differ += usize::from(lent::end(kind, &bytes) != expected);
        }
    }
    print!("port: the ends of {INPUTS} inputs, each of {KINDS} kinds: {whole} have one, ");
    println!("{with_zeros} of them behind a zero; {differ} otherwise");
    differ + usize::from(with_zeros == 0)
}

/// By the second reading.
fn expected(kind: u32, bytes: &[u8]) -> usize {
    match kind {
        0 => end::<Card>(bytes),
        1 => end::<AlertSheet>(bytes),
        2 => end::<VehicleSheet>(bytes),
        _ => 0,
    }
}

fn end<T: Form>(bytes: &[u8]) -> usize {
    let mut reader = Reader(bytes);
    T::read(&mut reader).map_or(0, |_| bytes.len() - reader.0.len())
}

/// A form as it is written, cut, with zeros or with other bytes behind, or damaged; or bytes by chance.
fn input(random: &mut Random, turn: usize) -> Vec<u8> {
    let mut form = match turn % 3 {
        0 => wild_card(random).written(),
        1 => wild_alert_sheet(random).written(),
        _ => wild_vehicle_sheet(random).written(),
    };
    match random.below(6) {
        0 => {}
        1 => form.truncate(random.below(form.len())),
        2 => form.resize(form.len() + random.below(20), 0),
        3 => form.extend(any_bytes(random)),
        4 => form = damaged(random, form),
        _ => form = [vec![1], any_bytes(random)].concat(),
    }
    form
}

/// Small ones as often as large ones.
fn any_bytes(random: &mut Random) -> Vec<u8> {
    random.list(40, |random| random.bits() as u8 >> random.below(8))
}
