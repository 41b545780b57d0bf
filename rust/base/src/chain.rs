//! Chains: statements of a vocabulary and steps of a script are linked by `next`, and 0 ends the chain.

/// Which of `count` records are on the chain that starts at `first`. A link that does not lead to a later record of
/// the chain's kind ends it.
pub fn followed(count: usize, first: u16, of_kind: impl Fn(usize) -> bool, next: impl Fn(usize) -> u16) -> Vec<bool> {
    let mut marks = vec![false; count];
    let (mut before, mut at) = (0, usize::from(first));
    while at > before && of_kind(at) {
        let Some(mark) = marks.get_mut(at) else { break };
        *mark = true;
        (before, at) = (at, usize::from(next(at)));
    }
    marks
}

/// The link that a text leaves out: from record `number`, the next record that is `on` the chain, else 0.
pub fn default_link(on: &[bool], number: usize) -> u16 {
    let after = on.iter().enumerate().skip(number + 1).find(|(_, on)| **on);
    after.map_or(0, |(number, _)| u16::try_from(number).unwrap_or(0))
}
