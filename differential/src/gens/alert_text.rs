//! Alert texts made of the words that the original's text rules look for, and of near misses.
use crate::random::Random;

const WORDS: &[&str] = &[
    "RER",
    "RER B",
    "rer d",
    "RERA",
    "METRO",
    "Métro 5",
    "métro14",
    "LIGNE",
    "ligne 5",
    "Lignes 4",
    "LIGNE 14",
    "5",
    "14",
    "1",
    "B",
    "D",
    "et 5",
    "ET",
    "T3",
    "T3a",
    "T1",
    "tram",
    "Tramway T1",
    "PRIVILEGIEZ",
    "privilégie",
    "saturation",
    "Reportez-vous",
    "REPORTER",
    "utilisez",
    "empruntez",
    "en direction de la ligne",
    "vers la ligne 5",
    "correspondance avec",
    "Travaux sur",
    "travaux sur les RER",
    "incident ligne 5",
    "INTERRUPT",
    "interrompu",
    "trafic",
    "TRAFIC ROUTIER",
    "routier",
    "ARRET",
    "arrêt",
    "Arret",
    "deplace",
    "DÉPLACÉ",
    "déplacé",
    "circulation",
    "LIGNE 5 :",
    "ligne 14 -",
    "opérera",
    "frère",
    "préférer bus",
    "ñ",
    "œ",
    "😀",
    "…",
    "suite à un incident",
    "les voyageurs sont invités à",
    "gare",
    "de",
    "la",
    "à",
    "é",
];
const JOINTS: &[&str] = &[" ", " ", " ", " ", "", ", ", ". ", " - ", ": "];

pub fn alert_text(random: &mut Random, most_words: usize) -> String {
    let words = random.list(most_words, |random| {
        let word = random.pick(WORDS);
        let word = if random.once_in(6) { word.to_uppercase() } else { word.to_string() };
        word + random.pick(JOINTS)
    });
    words.concat()
}
