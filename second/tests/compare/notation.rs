//! The octets of the case file: hex, zeros(N), text(N), any(N), none, empty.

pub fn hex(octets: &[u8]) -> String {
    octets.iter().map(|o| format!("{o:02X}")).collect()
}

/// Several words, one behind the other.
pub fn octets(words: &str) -> Vec<u8> {
    words.split_whitespace().flat_map(word).collect()
}

fn word(word: &str) -> Vec<u8> {
    let counted = |name: &str| {
        let inner = word.strip_prefix(name)?.strip_prefix('(')?;
        inner.strip_suffix(')')?.parse::<usize>().ok()
    };
    if let Some(n) = counted("zeros") {
        return vec![0x00; n];
    }
    if let Some(n) = counted("text") {
        return vec![0x41; n];
    }
    if let Some(n) = counted("any") {
        return any(n);
    }
    match word {
        "none" | "empty" => Vec::new(),
        _ => from_hex(word),
    }
}

/// One element of n octets in all, shortest form.
pub fn any(n: usize) -> Vec<u8> {
    match n {
        0..=129 => [vec![0x04, (n - 2) as u8], vec![0; n - 2]].concat(),
        130..=258 => [vec![0x04, 0x81, (n - 3) as u8], vec![0; n - 3]].concat(),
        _ => {
            let [.., high, low] = (n - 4).to_be_bytes();
            [vec![0x04, 0x82, high, low], vec![0; n - 4]].concat()
        }
    }
}

fn from_hex(word: &str) -> Vec<u8> {
    assert!(
        word.is_ascii() && word.len().is_multiple_of(2),
        "not hex: {word}"
    );
    let pairs = (0..word.len()).step_by(2).map(|i| &word[i..i + 2]);
    pairs
        .map(|pair| u8::from_str_radix(pair, 16).expect("hex"))
        .collect()
}
