//! Each number of the headers shows itself in the words that `c/header.out` keeps: a fault is below 0.
use ipxr::{Fault, Outcome};

/// How many numbers the headers have with words.
const NUMBERS: usize = 66;

#[test]
fn every_number_shows_itself_in_its_words() {
    let lines: Vec<_> = include_str!("../../c/header.out").lines().collect();
    assert_eq!(lines.len(), NUMBERS);
    for line in lines {
        let (_, rest) = line.split_once(": ").expect("a name");
        let (number, words) = rest.split_once(' ').expect("a number");
        let number = number.parse().expect("a number");
        let shown = if number < 0 { Fault(number).to_string() } else { Outcome(number).to_string() };
        assert_eq!(shown, words);
    }
}
