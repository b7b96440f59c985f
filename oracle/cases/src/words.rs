//! Words over an alphabet, numbered with the shorter ones first.

/// How many words there are up to a length.
pub fn count<T>(alphabet: &[T], length: u32) -> usize {
    (0..=length).map(|length| alphabet.len().pow(length)).sum()
}

/// The word of a number.
pub fn word(alphabet: &[&str], number: usize) -> String {
    list(alphabet, number).concat()
}

/// The letters of that word.
pub fn list<T: Copy>(alphabet: &[T], mut number: usize) -> Vec<T> {
    let mut letters = Vec::new();
    while number > 0 {
        number -= 1;
        letters.push(alphabet[number % alphabet.len()]);
        number /= alphabet.len();
    }
    letters.reverse();
    letters
}

#[cfg(test)]
mod tests {
    use super::*;

    #[test]
    fn every_word_once() {
        let words: Vec<String> = (0..count(&["a", "b"], 2)).map(|number| word(&["a", "b"], number)).collect();
        assert_eq!(words, ["", "a", "b", "aa", "ab", "ba", "bb"]);
    }
}
