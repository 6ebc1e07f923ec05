//! Septets and characters of the case file.

/// Hex numbers: 41*7 is seven times 41, 1B.65*2 is 1B 65 1B 65.
pub fn numbers(words: &str) -> Vec<u16> {
    words.split_whitespace().flat_map(word).collect()
}

fn word(word: &str) -> Vec<u16> {
    let (row, times) = word.split_once('*').unwrap_or((word, "1"));
    let numbers = row.split('.').map(|n| u16::from_str_radix(n, 16));
    let row: Vec<u16> = numbers.map(|n| n.expect("hex")).collect();
    row.repeat(times.parse().expect("a count"))
}

pub fn septets(words: &str) -> Vec<u8> {
    let septet = |n: u16| u8::try_from(n).ok().filter(|n| *n < 128);
    let numbers = numbers(words).into_iter();
    numbers.map(|n| septet(n).expect("a septet")).collect()
}
