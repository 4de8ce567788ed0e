//! Numbers and hex pairs as jobs and frames write them.

/// A number has no more digits than this.
const MOST_DIGITS: usize = 9;

/// 1 to 9 digits, the first not 0 unless it is the only one.
pub fn number(text: &[u8]) -> Option<u32> {
    let digits = !text.is_empty() && text.iter().all(u8::is_ascii_digit);
    let leading_zero = text.len() > 1 && text[0] == b'0';
    if !digits || leading_zero || text.len() > MOST_DIGITS {
        return None;
    }
    std::str::from_utf8(text).ok()?.parse().ok()
}

/// Two of `0` to `9` and `a` to `f` for each byte.
pub fn pairs(text: &[u8]) -> Option<Vec<u8>> {
    let digit = |byte: u8| match byte {
        b'0'..=b'9' => Some(byte - b'0'),
        b'a'..=b'f' => Some(byte - b'a' + 10),
        _ => None,
    };
    let byte = |pair: &[u8]| match *pair {
        [high, low] => Some(16 * digit(high)? + digit(low)?),
        _ => None,
    };
    text.chunks(2).map(byte).collect()
}
