//! One line: from text to octets and back.

/// The octets of a line whose text still has its 0A; number 1 is "line empty, odd, other
/// character, no final 0A".
pub fn octets(text: &[u8]) -> Result<Vec<u8>, u8> {
    let digits = text.strip_suffix(b"\n").ok_or(1)?;
    if digits.is_empty() || digits.len() % 2 != 0 {
        return Err(1);
    }
    digits.chunks(2).map(octet).collect()
}

/// "each pair an octet", the high digit first.
fn octet(pair: &[u8]) -> Result<u8, u8> {
    Ok(16 * digit(pair[0])? + digit(pair[1])?)
}

/// "digits 0-9 and A-F (capitals only)".
fn digit(character: u8) -> Result<u8, u8> {
    match character {
        b'0'..=b'9' => Ok(character - b'0'),
        b'A'..=b'F' => Ok(character - b'A' + 10),
        _ => Err(1),
    }
}

/// Number 2 is "under 3 octets, or length octet wrong", number 3 "line sum not zero".
pub fn check_frame(octets: &[u8]) -> Result<(), u8> {
    if octets.len() < 3 || usize::from(octets[0]) != octets.len() - 3 {
        return Err(2);
    }
    if !plain_sum(octets).is_multiple_of(256) {
        return Err(3);
    }
    Ok(())
}

/// "plain sum of all octets", here of one line.
pub fn plain_sum(octets: &[u8]) -> u32 {
    octets.iter().map(|&octet| u32::from(octet)).sum()
}

/// A line's octets: "length n, kind, n body octets, check octet".
pub fn sealed(kind: u8, body: &[u8]) -> Vec<u8> {
    let mut octets = vec![body.len() as u8, kind];
    octets.extend_from_slice(body);
    let check = octets
        .iter()
        .fold(0u8, |sum, &octet| sum.wrapping_sub(octet));
    octets.push(check);
    octets
}

/// A line's text: "pairs of digits", then "one byte 0A".
pub fn text(octets: &[u8]) -> Vec<u8> {
    let mut text: Vec<u8> = octets.iter().flat_map(|&octet| digits(octet)).collect();
    text.push(b'\n');
    text
}

/// The two digits of an octet.
fn digits(octet: u8) -> [u8; 2] {
    let capital = b"0123456789ABCDEF";
    [
        capital[usize::from(octet / 16)],
        capital[usize::from(octet % 16)],
    ]
}

/// "Numbers of several octets have the high octet first."
pub fn number(octets: &[u8]) -> u64 {
    octets
        .iter()
        .fold(0, |number, &octet| number * 256 + u64::from(octet))
}
