//! The parameters that a feature's tag calls for.

#[derive(Clone, Copy, Debug, PartialEq, Eq, Hash)]
pub enum Params {
    None,
    Size,
    StylisticSet,
    CharacterVariant,
}

const LAST_SET: u8 = 20;
const LAST_VARIANT: u8 = 99;

impl Params {
    pub fn of_tag(tag: &[u8]) -> Params {
        let Some((letters, digits)) = tag.split_at_checked(2) else {
            return Params::None;
        };
        match (letters, two_digits(digits)) {
            (b"ss", Some(1..=LAST_SET)) => Params::StylisticSet,
            (b"cv", Some(1..=LAST_VARIANT)) => Params::CharacterVariant,
            _ if tag == b"size" => Params::Size,
            _ => Params::None,
        }
    }
}

fn two_digits(digits: &[u8]) -> Option<u8> {
    match digits {
        [tens @ b'0'..=b'9', ones @ b'0'..=b'9'] => Some(10 * (tens - b'0') + ones - b'0'),
        _ => None,
    }
}
