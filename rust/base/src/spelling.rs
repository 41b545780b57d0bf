//! What a misspelt word may have meant.

/// Longer words are not looked at.
const LONGEST: usize = 200;
/// The most letters by which a word differs from the one that was meant.
const MOST: usize = 3;
/// Any greater distance.
const FAR: usize = usize::MAX / 2;

/// The candidate that is nearest to a word, if one is so near that it may have been meant.
pub fn nearest<'a>(word: &str, candidates: impl IntoIterator<Item = &'a str>) -> Option<&'a str> {
    let letters: Vec<char> = word.to_lowercase().chars().take(LONGEST + 1).collect();
    if letters.is_empty() || letters.len() > LONGEST {
        return None;
    }
    let far = |candidate: &&str| distance(&letters, &candidate.to_lowercase().chars().collect::<Vec<char>>());
    let nearest = candidates.into_iter().min_by_key(far)?;
    let most = (letters.len().max(nearest.len()) / 3).clamp(1, MOST);
    Some(nearest).filter(|nearest| *nearest != word && far(nearest) <= most)
}

/// How many letters have to be put in, left out, replaced or swapped with the next to make one word of another. Where these
/// are too many for it to be meant, some number that is too great, too.
fn distance(a: &[char], b: &[char]) -> usize {
    if a.len().abs_diff(b.len()) > MOST {
        return FAR;
    }
    let mut before_last = vec![FAR; b.len() + 1];
    let mut last: Vec<usize> = (0..=b.len()).collect();
    let mut row = vec![FAR; b.len() + 1];
    for (i, x) in a.iter().enumerate() {
        // What is farther from the diagonal takes more letters than may differ.
        let near = i.saturating_sub(MOST)..b.len().min(i + MOST + 1);
        if let Some(edge) = row.get_mut(near.start) {
            *edge = if near.start == 0 { i + 1 } else { FAR };
        }
        for (j, y) in near.clone().zip(b.get(near).unwrap_or_default()) {
            let at = |row: &[usize], place: usize| row.get(place).copied().unwrap_or(FAR);
            let mut least = (at(&last, j) + usize::from(x != y))
                .min(at(&last, j + 1) + 1)
                .min(at(&row, j) + 1);
            let swapped = i > 0 && j > 0 && a.get(i - 1) == Some(y) && b.get(j - 1) == Some(x);
            if swapped {
                least = least.min(at(&before_last, j - 1) + 1);
            }
            if let Some(cell) = row.get_mut(j + 1) {
                *cell = least;
            }
        }
        std::mem::swap(&mut before_last, &mut last);
        std::mem::swap(&mut last, &mut row);
    }
    last.last().copied().unwrap_or(0)
}

#[cfg(test)]
mod tests {
    use super::{distance, nearest, MOST};

    const WORDS: [&str; 6] = [
        "check",
        "compare",
        "within",
        "ObjectUnionOf",
        "ObjectIntersectionOf",
        "off",
    ];

    #[test]
    fn a_misspelt_word_finds_the_one_that_was_meant() {
        for (word, meant) in [
            ("chekc", "check"),
            ("comapre", "compare"),
            ("COMPARE", "compare"),
            ("witin", "within"),
            ("ObjectUnionof", "ObjectUnionOf"),
            ("ObjectUnonOf", "ObjectUnionOf"),
            ("ObjectIntersection", "ObjectIntersectionOf"),
            ("of", "off"),
        ] {
            assert_eq!(nearest(word, WORDS), Some(meant), "{word}");
        }
    }

    #[test]
    fn a_word_that_is_right_or_far_from_all_finds_none() {
        for word in [
            "check",
            "nonsense",
            "",
            "x",
            "ObjectSomeValuesFrom",
            &"check".repeat(1000),
        ] {
            assert_eq!(nearest(word, WORDS), None, "{word}");
        }
    }

    /// The distance by its definition, from the ends of the words.
    fn plain(a: &[char], b: &[char]) -> usize {
        let ([before_a @ .., x], [before_b @ .., y]) = (a, b) else {
            return a.len().max(b.len());
        };
        let mut least = (plain(before_a, before_b) + usize::from(x != y))
            .min(plain(before_a, b) + 1)
            .min(plain(a, before_b) + 1);
        if let ([first_a @ .., w], [first_b @ .., z]) = (before_a, before_b) {
            if w == y && x == z {
                least = least.min(plain(first_a, first_b) + 1);
            }
        }
        least
    }

    #[test]
    fn the_distance_is_exact_up_to_the_most() {
        let (mut state, mut near, mut far) = (0x5eed_u64, 0, 0);
        let mut word = || {
            state = state.wrapping_mul(6_364_136_223_846_793_005).wrapping_add(1);
            let length = (state >> 60) % 9;
            let letter = |place| char::from(b'a' + ((state >> (20 + 2 * place)) % 3) as u8);
            (0..length).map(letter).collect::<Vec<char>>()
        };
        for _ in 0..3_000 {
            let (a, b) = (word(), word());
            match (distance(&a, &b), plain(&a, &b)) {
                (found, wanted) if wanted <= MOST => {
                    assert_eq!(found, wanted, "{a:?} {b:?}");
                    near += 1;
                }
                (found, _) => {
                    assert!(found > MOST, "{a:?} {b:?}");
                    far += 1;
                }
            }
        }
        assert!(near > 500 && far > 500, "{near} {far}");
    }
}
