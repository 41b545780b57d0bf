//! The samples of the paper, number by number. No function that makes cases is used, so that an error in these does not
//! hide.

use crate::vocabulary::Refusal;

/// A vocabulary: the header's A and B, and of each other record the kind, A, B and next.
fn vocabulary(first: u16, roles: u16, records: &[[u16; 4]]) -> Vec<u8> {
    let header = [[16 + 256, first, roles, 0]];
    let numbers = header.iter().chain(records).flatten();
    numbers.flat_map(|number| number.to_le_bytes()).collect()
}

/// A script, by the words of its records.
pub fn script(records: &[[u16; 8]]) -> Vec<u8> {
    let words = records.iter().flatten();
    words.flat_map(|word| word.to_le_bytes()).collect()
}

/// A refusal.
pub fn refusal(number: u8, place: usize) -> Refusal {
    Refusal { number, place }
}

/// A header alone.
pub fn header(roles: u16) -> Vec<u8> {
    vocabulary(0, roles, &[])
}

/// So many names after the header.
pub fn names(count: u16) -> Vec<u8> {
    let records: Vec<[u16; 4]> = (0..count).map(|label| [3, label, 0, 0]).collect();
    vocabulary(0, 0, &records)
}

/// The vocabularies of samples 1 to 6; V is the first.
pub fn vocabularies() -> [Vec<u8>; 6] {
    let [one, two, three] = [[3, 1, 0, 0], [3, 2, 0, 0], [3, 3, 0, 0]];
    let both = [5, 1, 2, 0];
    [
        vocabulary(5, 0, &[one, two, three, both, [9, 4, 3, 0]]),
        vocabulary(5, 0, &[one, two, three, both, [9, 4, 3, 6], [9, 3, 4, 0]]),
        vocabulary(3, 1, &[one, [7, 0, 1, 0], [9, 1, 2, 0], [2, 0, 0, 0]]),
        vocabulary(0, 1, &[[2, 0, 0, 0], [7, 0, 1, 0]]),
        vocabulary(3, 0, &[[1, 0, 0, 0], [2, 0, 0, 0], [9, 1, 2, 0]]),
        vocabulary(
            5,
            1,
            &[
                one,
                two,
                [7, 0, 2, 0],
                [8, 0, 2, 0],
                [9, 1, 3, 6],
                [9, 4, 1, 0],
                [1, 0, 0, 0],
            ],
        ),
    ]
}

/// A sample of the script check: vocabulary, script and answer.
type Sample = (Vec<u8>, Vec<u8>, Result<usize, Refusal>);

/// Samples 7 to 9, the last with both of its terms.
pub fn scripts() -> [Sample; 4] {
    let [v, _, _, fourth, ..] = vocabularies();
    let constant = [1, 0, 0, 0, 0, 0, 0, 0];
    let beginning = [[32, 4, 3, 2, 0, 0, 0, 0], constant, [3, 1, 0, 0, 0, 0, 0, 3]];
    let seventh = [[4, 5, 0, 1, 0, 1, 0, 4], [4, 0, 0, 1, 0, 0, 0, 0]];
    let eighth = [[4, 5, 0, 1, 0, 1, 0, 0]];
    let ninth = |x| {
        script(&[
            [32, 2, 1, 3, 0, 0, 0, 0],
            constant,
            [2, 2, 1, 0, 0, 0, 0, 0],
            [3, 0, 0, 0, 0, 0, 0, 4],
            [4, 2, 1, 1, 0, 0, 0, 5],
            [4, 1, 0, x, 0, 0, 0, 0],
        ])
    };
    [
        (v.clone(), script(&[&beginning[..], &seventh].concat()), Ok(3)),
        (v, script(&[&beginning[..], &eighth].concat()), Err(refusal(24, 3))),
        (fourth.clone(), ninth(2), Ok(3)),
        (fourth, ninth(1), Err(refusal(21, 5))),
    ]
}

/// Top and so many complements over it, each of the record before it, and a script that opens a frame for each of them
/// over the first. Of an odd number the last lies within top, since it has no element; within an even number's last top
/// lies.
pub fn complements(count: u16) -> (Vec<u8>, Vec<u8>) {
    let last = 1 + count;
    let nots = (1..last).map(|below| [4, below, 0, 0]);
    let records: Vec<[u16; 4]> = std::iter::once([1, 0, 0, 0]).chain(nots).collect();
    let (query, start) = if count % 2 == 1 { ([last, 1], 0) } else { ([1, last], 1) };
    let mut words = vec![
        [32, query[0], query[1], 2, 0, 0, 0, 0],
        [1, 0, 0, 0, 0, 0, 0, 0],
        [3, start, 0, 0, 0, 0, 0, 3],
    ];
    // A goal that is Ci takes column 1 of the complement, one that is ¬Ci column 0: the start's, then in turn.
    for (place, owner) in (3..).zip((1..=last).rev()) {
        let column = if owner == 1 { 0 } else { (start + last - owner) % 2 };
        let next = if owner == 1 { 0 } else { place + 1 };
        words.push([4, owner, column, 1, 0, 0, 0, next]);
    }
    (vocabulary(0, 0, &records), script(&words))
}

/// Bottom, some of it, and some of that.
pub fn levels() -> Vec<u8> {
    vocabulary(0, 1, &[[2, 0, 0, 0], [7, 0, 1, 0], [7, 0, 2, 0]])
}

/// The script over them for the last within bottom. Records 2 and 3 are both f3(a); 4 and 5 are f2 of two records that
/// are given. So are the two that its last steps name for x.
pub fn nested(inner: [u16; 2], named: [u16; 2]) -> Vec<u8> {
    script(&[
        [32, 3, 1, 6, 0, 0, 0, 0],
        [1, 0, 0, 0, 0, 0, 0, 0],
        [2, 3, 1, 0, 0, 0, 0, 0],
        [2, 3, 1, 0, 0, 0, 0, 0],
        [2, 2, inner[0], 0, 0, 0, 0, 0],
        [2, 2, inner[1], 0, 0, 0, 0, 0],
        [3, 0, 0, 0, 0, 0, 0, 7],
        [4, 3, 1, 1, 0, 0, 0, 8],
        [4, 2, 1, named[0], 0, 0, 0, 9],
        [4, 1, 0, named[1], 0, 0, 0, 0],
    ])
}
