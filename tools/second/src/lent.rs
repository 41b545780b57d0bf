//! Lent bytes: what they hold before a call, and how they are told after it.

/// How far each lent byte is above the one before it.
const STEP: u8 = 7;

/// So many lent bytes before a call: byte i is 7 i + seed, modulo 256.
pub fn filled(length: impl Into<usize>, seed: u8) -> Vec<u8> {
    let bytes = std::iter::successors(Some(seed), |byte| Some(byte.wrapping_add(STEP)));
    bytes.take(length.into()).collect()
}

/// The first so many bytes in hexadecimal, as far as the last that is not 0; a dash where all are 0.
pub fn hex(bytes: &[u8], written: usize) -> String {
    let bytes = bytes.iter().take(written);
    match bytes.clone().rposition(|byte| *byte != 0) {
        None => "-".to_string(),
        Some(last) => bytes.take(last + 1).map(|byte| format!("{byte:02x}")).collect(),
    }
}

/// The sum of the bytes, and the sum of the sums after each byte, which tells their order.
pub fn sums(bytes: &[u8]) -> String {
    let add = |[low, high]: [u32; 2], byte: &u8| {
        let low = low.wrapping_add(u32::from(*byte));
        [low, high.wrapping_add(low)]
    };
    let [low, high] = bytes.iter().fold([0, 0], add);
    format!("{low} {high}")
}
