//! Files of cases, one after the other.

/// The cases of a file, each split off what is left of it; or where the file is malformed.
pub fn decode<Case>(bytes: &[u8], split: impl Fn(&[u8]) -> Option<(Case, &[u8])>) -> Result<Vec<Case>, String> {
    let mut cases = Vec::new();
    let mut rest = bytes;
    while !rest.is_empty() {
        let ends = || format!("the file ends inside case {}", cases.len());
        let (case, after) = split(rest).ok_or_else(ends)?;
        cases.push(case);
        rest = after;
    }
    Ok(cases)
}

/// The two bytes of a length, low byte first, or that it is too long for them.
pub fn length(bytes: &[u8]) -> Result<[u8; 2], String> {
    let length = u16::try_from(bytes.len());
    let length = length.map_err(|_| "an input is too long for a case".to_string())?;
    Ok(length.to_le_bytes())
}

/// The first so many bytes, or all where there are fewer.
pub fn beginning(bytes: &[u8], length: usize) -> Vec<u8> {
    bytes.iter().copied().take(length).collect()
}

/// Bytes with one of them changed.
pub fn with_byte(bytes: &[u8], place: usize, value: u8) -> Vec<u8> {
    let mut changed = bytes.to_vec();
    if let Some(byte) = changed.get_mut(place) {
        *byte = value;
    }
    changed
}
