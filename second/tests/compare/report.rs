//! Lines of a report, of at most forty characters, that second/test shows.

pub fn lines(label: &str, text: &str) {
    println!("| {label}:");
    for line in text.lines() {
        let line: Vec<char> = line.chars().collect();
        for part in line.chunks(36) {
            println!("|   {}", part.iter().collect::<String>());
        }
    }
}
