//! A text in large: letters of five rows and five columns, in the shapes of the program `ride`.

/// The letters that the statuses have, a row after the other; any other letter is blank.
fn shape(letter: char) -> u32 {
    match letter {
        'A' => 0b01110_10001_11111_10001_10001,
        'C' => 0b01111_10000_10000_10000_01111,
        'D' => 0b11110_10001_10001_10001_11110,
        'E' => 0b11111_10000_11110_10000_11111,
        'H' => 0b10001_10001_11111_10001_10001,
        'I' => 0b01110_00100_00100_00100_01110,
        'L' => 0b10000_10000_10000_10000_11111,
        'M' => 0b10001_11011_10101_10001_10001,
        'N' => 0b10001_11001_10101_10011_10001,
        'O' => 0b01110_10001_10001_10001_01110,
        'P' => 0b11110_10001_11110_10000_10000,
        'R' => 0b11110_10001_11110_10010_10001,
        'S' => 0b01111_10000_01110_00001_11110,
        'T' => 0b11111_00100_00100_00100_00100,
        'U' => 0b10001_10001_10001_10001_01110,
        'Y' => 0b10001_01010_00100_00100_00100,
        _ => 0,
    }
}

/// Five lines, with an indent of two; none ends in blanks.
pub fn large(text: &str) -> String {
    let line = |row: u32| {
        let bits = text.chars().map(|letter| shape(letter) >> (20 - 5 * row) & 31);
        let marks: String =
            bits.map(|bits| format!(" {bits:05b}").replace('0', " ").replace('1', "#")).collect();
        format!(" {}\n", marks.trim_end())
    };
    (0..5).map(line).collect()
}
