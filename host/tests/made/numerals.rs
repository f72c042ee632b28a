//! Numerals: well formed, malformed and too large.

use crate::reference::random::Random;

const PLAIN: [&str; 24] = [
    "0",
    "1",
    "-1",
    ".5",
    "2.",
    "1e3",
    "-2.5e-3",
    "+7",
    "0.0",
    "-0",
    "100",
    "3.25",
    "1E2",
    "9e-22",
    ".001",
    "-0e999",
    "1e22",
    "1e-22",
    "999999999999999",
    "999999999999999e22",
    "999999999999999e-22",
    ".0000000000000000000001",
    "1.52",
    "0.1",
];
const MALFORMED: [&str; 26] = [
    ".", "e5", "1e", "1.2.3", "1e1000", "0x1", "-", "+", "--1", "+-1", "1e+", "1e-", "1e+-1", "1e5.", "e", "1ee1",
    "1_0", "inf", "nan", "NaN", ".e1", "1e23x", "0e1000", "1,5", "1d5", "1f",
];
const LARGE: [&str; 12] = [
    "1e23",
    "1e-23",
    "1000000000000000",
    "9999999999999999",
    "10e22",
    "1.5e-22",
    "1e999",
    "-1e-999",
    "18446744073709551616",
    "18446744073709551617",
    "1000000000000000e-5",
    ".00000000000000000000001",
];

fn digits(random: &mut Random, count: usize) -> String {
    (0..count).map(|_| char::from(b'0' + random.below(10) as u8)).collect()
}

/// A numeral that is accepted.
pub fn good(random: &mut Random) -> String {
    match random.below(10) {
        0..=3 => random.pick(&PLAIN).to_string(),
        4..=5 => format!("{}.{}", random.below(100), digits(random, 3)),
        6..=7 => scaled(random),
        8 => halfway(random),
        _ => {
            let value = random.below(1000).to_string();
            format!("{}{value}", "0".repeat(random.below(65 - value.len())))
        }
    }
}

/// Up to 15 digits with a point among them, and an exponent that keeps the power from -22 to 22.
fn scaled(random: &mut Random) -> String {
    let count = random.within(1, 15);
    let mut word = digits(random, count);
    let point = random.below(count + 1);
    let behind = (count - point) as i32;
    word.insert(point, '.');
    let exponent = random.below(45) as i32 - 22 + behind;
    let sign = ["", "-", "+"][random.below(3)];
    let mark = ["e", "E"][random.below(2)];
    match random.below(3) {
        0 => format!("{sign}{word}{mark}{exponent}"),
        1 => format!("{sign}{word}{mark}{exponent:+04}"),
        _ => format!("{sign}{word}"),
    }
}

/// A numeral halfway between two doubles: c * 5^k has 54 binary digits, the last of them 1.
fn halfway(random: &mut Random) -> String {
    let power = random.within(2, 22);
    let five = 5_u64.pow(power as u32);
    let low = (1 << 53_u64) / five + 1;
    let high = ((1_u64 << 54) / five).min(999_999_999_999_999);
    let odd = random.within(low as usize, high as usize - 1) | 1;
    format!("{odd}e{power}")
}

/// A numeral above 0 that is neither large nor small.
pub fn positive(random: &mut Random) -> String {
    match random.below(3) {
        0 => random.within(1, 99).to_string(),
        1 => format!(".{}{}", random.within(1, 9), digits(random, 3)),
        _ => format!("{}.{}", random.within(1, 9), digits(random, 2)),
    }
}

/// A word that is no numeral.
pub fn malformed(random: &mut Random) -> String {
    random.pick(&MALFORMED).to_string()
}

/// A numeral that is too large.
pub fn large(random: &mut Random) -> String {
    random.pick(&LARGE).to_string()
}

/// A word like a numeral: any of the above, often with a byte changed.
pub fn any(random: &mut Random) -> String {
    let mut word = match random.below(8) {
        0 => malformed(random),
        1 => large(random),
        _ => good(random),
    };
    if random.percent(15) && word.len() < 64 {
        word.insert(random.below(word.len() + 1), *random.pick(&['0', '9', '.', 'e', 'E', '+', '-', 'x']));
    }
    if random.percent(5) && word.len() > 1 {
        word.remove(random.below(word.len()));
    }
    word
}
