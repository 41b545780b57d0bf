//! Records that are the same but for their numbers, in few words.

/// Pairs of an old and a new number, in order, told as ranges: `4 is 5`, `6 to 9 are 8 to 11`.
pub fn words(pairs: &[(u16, u16)]) -> String {
    let mut ranges: Vec<[(u16, u16); 2]> = Vec::new();
    for &(old, new) in pairs {
        match ranges.last_mut() {
            Some([_, last]) if (last.0 + 1, last.1 + 1) == (old, new) => *last = (old, new),
            _ => ranges.push([(old, new); 2]),
        }
    }
    let words: Vec<String> = ranges.into_iter().map(range).collect();
    words.join(", ")
}

fn range([first, last]: [(u16, u16); 2]) -> String {
    match first == last {
        true => format!("{} is {}", first.0, first.1),
        false => format!("{} to {} are {} to {}", first.0, last.0, first.1, last.1),
    }
}

#[cfg(test)]
mod tests {
    use super::words;

    #[test]
    fn numbers_that_follow_one_another_are_one_range() {
        let pairs = [(1, 3), (4, 5), (5, 6), (6, 7), (8, 9), (9, 4)];
        assert_eq!(words(&pairs), "1 is 3, 4 to 6 are 5 to 7, 8 is 9, 9 is 4");
        assert_eq!(words(&[]), "");
    }
}
