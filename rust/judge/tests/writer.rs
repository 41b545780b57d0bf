//! The calls that write a vocabulary, and the builder over them: every refusal with its place, what is left untouched, the
//! limits, and what is read back.

#![allow(clippy::unwrap_used, clippy::indexing_slicing)]

use judge::{add_statement, add_term, check_vocabulary, make_vocabulary, Builder, Refusal};

/// An addition: a term of a kind, or a statement.
#[derive(Clone, Copy, Debug)]
enum Addition {
    Term(u8, u16, u16),
    Statement(u16, u16),
}

use Addition::{Statement, Term};

/// Adds to the first `used` bytes of a buffer.
fn add(buffer: &mut [u8], used: usize, addition: Addition) -> Result<usize, Refusal> {
    match addition {
        Term(kind, a, b) => add_term(buffer, used, kind, a, b),
        Statement(a, b) => add_statement(buffer, used, a, b),
    }
}

/// A buffer of so many bytes that no call has written to.
fn lent(length: usize) -> Vec<u8> {
    (0..length).map(|i| (i * 7 + 3) as u8).collect()
}

/// A buffer of so many bytes with these at its front.
fn begun(front: &[u8], length: usize) -> Vec<u8> {
    let mut buffer = lent(length);
    buffer[..front.len()].copy_from_slice(front);
    buffer
}

/// The eight bytes of a record.
fn record(kind: u8, second: u8, words: [u16; 3]) -> Vec<u8> {
    let words = words.into_iter().flat_map(u16::to_le_bytes);
    [kind, second].into_iter().chain(words).collect()
}

/// One role; the name 7, record 1; "some 0 to 1", record 2; the statement "2 within 1", record 3.
fn three() -> Vec<u8> {
    [
        record(16, 1, [3, 1, 0]),
        record(3, 0, [7, 0, 0]),
        record(7, 0, [0, 1, 0]),
        record(9, 0, [2, 1, 0]),
    ]
    .concat()
}

/// A header and names up to so many records.
fn names(records: u16) -> Vec<u8> {
    let names = (1..records).flat_map(|label| record(3, 0, [label, 0, 0]));
    record(16, 1, [0, 0, 0]).into_iter().chain(names).collect()
}

/// A vocabulary with the true number of atoms in its header, if that is of edition 2.
fn counted(mut bytes: Vec<u8>) -> Vec<u8> {
    if bytes[1] == 2 {
        let atoms = bytes.chunks(8).skip(1).filter(|record| matches!(record[0], 3 | 7 | 8));
        let atoms = atoms.count() as u16;
        bytes[6..8].copy_from_slice(&atoms.to_le_bytes());
    }
    bytes
}

/// A vocabulary of edition 1, and the same of edition 2.
fn editions(one: Vec<u8>) -> [Vec<u8>; 2] {
    let mut two = one.clone();
    two[1] = 2;
    [one, counted(two)]
}

/// An addition that is refused with this number and place, and leaves the whole buffer as it was.
fn refuses(mut buffer: Vec<u8>, used: usize, addition: Addition, number: u8, place: u32) {
    let before = buffer.clone();
    let refusal = add(&mut buffer, used, addition).unwrap_err();
    assert_eq!((refusal.rule.number(), refusal.place), (number, place), "{addition:?}");
    assert!(buffer == before, "{addition:?}");
}

#[test]
fn an_empty_vocabulary_is_eight_bytes_and_the_rest_of_the_buffer_stays() {
    for (length, roles) in [(8, 0), (9, 1), (4096, 63), (10_000, 64)] {
        let mut buffer = lent(length);
        assert_eq!(make_vocabulary(&mut buffer, roles), Ok(8));
        assert_eq!(buffer[..8], record(16, 2, [0, roles as u16, 0])[..]);
        assert_eq!(buffer[8..], lent(length)[8..]);
    }
}

#[test]
fn making_is_refused_without_room_and_then_for_the_roles() {
    for (length, roles, number) in [
        (0, 0, 27),
        (7, 0, 27),
        (7, 65, 27),
        (8, 65, 2),
        (4096, 65_537, 2),
        (8, u32::MAX, 2),
    ] {
        let mut buffer = lent(length);
        let refusal = make_vocabulary(&mut buffer, roles).unwrap_err();
        assert_eq!((refusal.rule.number(), refusal.place), (number, 0));
        assert_eq!(buffer, lent(length));
    }
}

/// In a header of edition 2 the number of atoms changes with it, if the term is one.
#[test]
fn a_term_changes_its_eight_bytes_and_no_others() {
    for (kind, a, b) in [
        (1, 0, 0),
        (2, 0, 0),
        (3, 8, 0),
        (4, 2, 0),
        (5, 1, 2),
        (6, 2, 2),
        (7, 0, 2),
        (8, 0, 1),
    ] {
        for (front, length) in editions(three())
            .iter()
            .flat_map(|front| [40, 41, 4096, 5000].map(|length| (front, length)))
        {
            let mut buffer = begun(front, length);
            assert_eq!(add_term(&mut buffer, 32, kind, a, b), Ok(40));
            let grown = counted([&front[..], &record(kind, 0, [a, b, 0])].concat());
            let wanted = [&grown[..], &lent(length)[40..]].concat();
            assert!(buffer == wanted, "{kind}");
            assert_eq!(front[6..8] == grown[6..8], front[1] == 1 || !matches!(kind, 3 | 7 | 8));
        }
    }
}

#[test]
fn a_statement_is_linked_from_the_last_of_the_chain() {
    for front in editions(three()) {
        let mut buffer = begun(&front, 100);
        assert_eq!(add_statement(&mut buffer, 32, 1, 2), Ok(40));
        let chained = [&front[..24], &record(9, 0, [2, 1, 4]), &record(9, 0, [1, 2, 0])].concat();
        assert_eq!(buffer, [&chained[..], &lent(100)[40..]].concat());
        // With no statement the header has the link; the label of a name is no link.
        let mut buffer = begun(&front[..24], 24 + 8);
        buffer[2] = 0;
        assert_eq!(add_statement(&mut buffer, 24, 1, 1), Ok(32));
        assert_eq!(buffer[..8], front[..8]);
        assert_eq!(buffer[24..], record(9, 0, [1, 1, 0])[..]);
    }
}

/// The last statement of the file is off the chain, and its link leads nowhere: it stays as it is.
#[test]
fn a_statement_off_the_chain_is_not_linked_from() {
    let off = [&three()[..], &record(9, 0, [1, 1, 0])].concat();
    let mut buffer = begun(&off, 60);
    assert_eq!(add_statement(&mut buffer, 40, 1, 2), Ok(48));
    let wanted = [
        &off[..24],
        &record(9, 0, [2, 1, 5]),
        &record(9, 0, [1, 1, 0]),
        &record(9, 0, [1, 2, 0]),
    ]
    .concat();
    assert_eq!(buffer, [&wanted[..], &lent(60)[48..]].concat());
}

#[test]
fn the_bytes_in_use_are_refused_first() {
    let damaged = |edition: u8, place: usize, byte: u8| {
        let [one, two] = editions(three());
        let mut bytes = if edition == 1 { one } else { two };
        bytes[place] = byte;
        bytes
    };
    // The buffer has no room either, and the addition is wrong by itself.
    for addition in [Term(9, 0, 0), Term(1, 0, 0), Statement(0, 0), Statement(1, 1)] {
        for used in [0, 7, 9, 31, 33, 4104, 1 << 40, usize::MAX] {
            refuses(begun(&three(), 32), used, addition, 1, 0);
            refuses(begun(&three(), 5000), used, addition, 1, 0);
        }
        let of_both = [
            (1, 3, 2, 0),
            (4, 65, 2, 0),
            (8, 10, 3, 1),
            (9, 1, 3, 1),
            (12, 1, 4, 1),
            (20, 2, 5, 2),
            (18, 1, 6, 2),
            (2, 1, 8, 0),
            (30, 3, 8, 3),
        ];
        let of_both = of_both.into_iter().flat_map(|damage| [(1, damage), (2, damage)]);
        // The place of 28 is the true number of atoms.
        let of_one = [
            (1, (6, 2, 2, 0)),
            (1, (1, 2, 28, 2)),
            (2, (6, 3, 28, 2)),
            (2, (7, 1, 28, 2)),
        ];
        for (edition, (place, byte, number, record)) in of_both.chain(of_one) {
            refuses(begun(&damaged(edition, place, byte), 32), 32, addition, number, record);
            refuses(
                begun(&damaged(edition, place, byte), 5000),
                32,
                addition,
                number,
                record,
            );
        }
        for repeated in editions([three(), record(3, 0, [7, 0, 0])].concat()) {
            refuses(begun(&repeated, 40), 40, addition, 7, 4);
        }
    }
}

#[test]
fn then_there_has_to_be_room() {
    for addition in [Term(9, 0, 0), Term(1, 0, 0), Statement(0, 0), Statement(1, 1)] {
        for free in 0..8 {
            refuses(begun(&three(), 32 + free), 32, addition, 27, 4);
        }
        // 512 records are no fewer in a longer buffer.
        for length in [4096, 4104, 10_000] {
            for full in editions(names(512)) {
                refuses(begun(&full, length), 4096, addition, 27, 512);
            }
        }
    }
}

#[test]
fn then_the_new_record_is_refused_as_the_reader_would() {
    for kind in (0..=255).filter(|kind| !(1..=8).contains(kind)) {
        refuses(begun(&three(), 40), 32, Term(kind, 1, 1), 3, 4);
    }
    for (addition, number) in [
        (Term(1, 1, 0), 4),
        (Term(2, 0, 1), 4),
        (Term(3, 7, 1), 4),
        (Term(4, 0, 1), 4),
        (Term(4, 0, 0), 5),
        (Term(4, 4, 0), 5),
        (Term(5, 1, 3), 5),
        (Term(6, 70, 1), 5),
        (Term(7, 1, 5), 5),
        (Term(8, 0, 0), 5),
        (Term(7, 1, 1), 6),
        (Term(8, 65_535, 2), 6),
        (Term(3, 7, 0), 7),
        (Statement(0, 1), 5),
        (Statement(1, 3), 5),
        (Statement(4, 1), 5),
        (Statement(1, 65_535), 5),
    ] {
        refuses(begun(&three(), 40), 32, addition, number, 4);
        refuses(begun(&three(), 4096), 32, addition, number, 4);
    }
}

#[test]
fn a_buffer_fills_up_to_its_last_eight_bytes() {
    let mut buffer = lent(4096 + 16);
    let mut used = make_vocabulary(&mut buffer, 0).unwrap();
    for label in 1..512 {
        used = add_term(&mut buffer, used, 3, label, 0).unwrap();
        assert_eq!(used, 8 * (usize::from(label) + 1));
    }
    assert_eq!(check_vocabulary(&buffer[..used]), Ok(512));
    let [_, full] = editions(names(512));
    assert_eq!(buffer[..4096], full[..]);
    assert_eq!(buffer[4096..], lent(4096 + 16)[4096..]);
}

/// Random additions, good and bad: what has succeeded is what is read back, and the check accepts it after each.
#[test]
fn what_was_added_is_read_back_in_order() {
    let mut seed = 0x2545_f491_u32;
    let mut random = |bound: u32| {
        seed = seed.wrapping_mul(1_664_525).wrapping_add(1_013_904_223);
        (seed >> 8) % bound
    };
    let (mut added, mut refused) = (0, 0);
    for _ in 0..200 {
        let roles = random(3);
        let mut terms = Builder::new(roles).unwrap();
        let mut list = Vec::new();
        for _ in 0..random(60) {
            let mut field = || random(list.len() as u32 + 2) as u16;
            let (a, b) = (field(), field());
            let kind = 1 + random(9) as u8;
            let addition = match kind {
                9 => Statement(a, b),
                1 | 2 => Term(kind, 0, 0),
                3 | 4 => Term(kind, a, 0),
                7 | 8 => Term(kind, a % 4, b),
                _ => Term(kind, a, b),
            };
            let before = terms.as_bytes().to_vec();
            let answer = match addition {
                Term(kind, a, b) => terms.term(kind, a, b),
                Statement(a, b) => terms.statement(a, b),
            };
            match answer {
                Ok(number) => {
                    list.push(addition);
                    assert_eq!((usize::from(number), terms.records()), (list.len(), list.len() + 1));
                }
                Err(refusal) => {
                    refused += 1;
                    assert_eq!(refusal.place as usize, list.len() + 1);
                    assert_eq!(terms.as_bytes(), before);
                }
            }
        }
        added += list.len();
        assert_eq!(check_vocabulary(terms.as_bytes()), Ok(list.len() as u32 + 1));
        assert_eq!(terms.as_bytes(), expected(roles as u16, &list));
    }
    assert!(added > 1_000 && refused > 1_000, "{added} {refused}");
}

/// The bytes of a vocabulary of these terms and statements, all on the chain in their order.
fn expected(roles: u16, list: &[Addition]) -> Vec<u8> {
    let after = |number: usize| {
        let rest = list.iter().enumerate().skip(number);
        let mut statements = rest.filter(|(_, addition)| matches!(addition, Statement(..)));
        statements.next().map_or(0, |(place, _)| place as u16 + 1)
    };
    let mut bytes = record(16, 2, [after(0), roles, 0]);
    for (place, addition) in list.iter().enumerate() {
        bytes.extend(match *addition {
            Term(kind, a, b) => record(kind, 0, [a, b, 0]),
            Statement(a, b) => record(9, 0, [a, b, after(place + 1)]),
        });
    }
    counted(bytes)
}

#[test]
fn the_builder_writes_a_record_of_each_kind() {
    let mut terms = Builder::new(2).unwrap();
    let numbers = [
        terms.name(7),
        terms.top(),
        terms.bottom(),
        terms.not(1),
        terms.and(1, 2),
        terms.or(3, 4),
        terms.some(1, 5),
        terms.all(0, 6),
        terms.term(3, 9, 0),
        terms.statement(1, 2),
        terms.statement(8, 9),
    ];
    assert_eq!(numbers.map(Result::unwrap), [1, 2, 3, 4, 5, 6, 7, 8, 9, 10, 11]);
    let list = [
        Term(3, 7, 0),
        Term(1, 0, 0),
        Term(2, 0, 0),
        Term(4, 1, 0),
        Term(5, 1, 2),
        Term(6, 3, 4),
        Term(7, 1, 5),
        Term(8, 0, 6),
        Term(3, 9, 0),
        Statement(1, 2),
        Statement(8, 9),
    ];
    assert_eq!(terms.as_bytes(), expected(2, &list));
    assert_eq!(terms.records(), 12);
}

#[test]
fn the_builder_takes_any_buffer_and_gives_it_back() {
    let mut array = [9; 20];
    let mut terms = Builder::in_buffer(&mut array[..], 0).unwrap();
    assert_eq!(terms.top(), Ok(1));
    let refusal = terms.bottom().unwrap_err();
    assert_eq!((refusal.rule.number(), refusal.place), (27, 2));
    assert_eq!(terms.as_bytes().len(), 16);
    assert_eq!(array, [16, 2, 0, 0, 0, 0, 0, 0, 1, 0, 0, 0, 0, 0, 0, 0, 9, 9, 9, 9]);
    let (buffer, used) = Builder::in_buffer(vec![0; 30], 3).unwrap().into_inner();
    assert_eq!((buffer.len(), used), (30, 8));
    let refused = |answer: Result<Builder<Vec<u8>>, Refusal>| answer.unwrap_err().rule.number();
    assert_eq!(refused(Builder::in_buffer(vec![0; 7], 0)), 27);
    assert_eq!(refused(Builder::in_buffer(vec![0; 8], 65)), 2);
    assert_eq!(Builder::new(65).unwrap_err().rule.number(), 2);
}

#[test]
fn the_builder_goes_on_from_an_accepted_vocabulary_only() {
    let mut terms = Builder::resume(begun(&three(), 48), 32).unwrap();
    assert_eq!((terms.as_bytes(), terms.records()), (&three()[..], 4));
    assert_eq!((terms.statement(1, 1), terms.not(2)), (Ok(4), Ok(5)));
    assert_eq!(terms.not(2).unwrap_err().rule.number(), 27);
    for (used, number) in [(49, 1), (33, 1), (0, 1), (usize::MAX, 1), (48, 3), (40, 3), (24, 8)] {
        let refusal = Builder::resume(begun(&three(), 48), used).unwrap_err();
        assert_eq!(refusal.rule.number(), number, "{used}");
    }
}

/// include/judge.h names the kinds that the builder writes.
#[test]
fn the_header_has_the_same_kinds() {
    let mut terms = Builder::new(1).unwrap();
    let header = include_str!("../../../include/judge.h");
    for (name, number) in [
        ("TOP", terms.top()),
        ("BOTTOM", terms.bottom()),
        ("NAME", terms.name(1)),
        ("NOT", terms.not(1)),
        ("AND", terms.and(1, 1)),
        ("OR", terms.or(1, 1)),
        ("SOME", terms.some(0, 1)),
        ("ALL", terms.all(0, 1)),
    ] {
        let kind = terms.as_bytes()[8 * usize::from(number.unwrap())];
        let written = header.split(&format!("JUDGE_{name} = ")).nth(1).unwrap();
        assert!(written.starts_with(&kind.to_string()), "{name}");
    }
}
