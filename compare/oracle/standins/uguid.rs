//! Stands in for the crate `uguid`: 16 bytes, and the constants written as text (RFC 4122, the first three parts little-endian).

use std::fmt;

#[derive(Clone, Copy, Debug, Default, PartialEq, Eq)]
pub struct Guid([u8; 16]);

impl Guid {
    pub const ZERO: Guid = Guid([0; 16]);

    pub const fn from_bytes(bytes: [u8; 16]) -> Self {
        Guid(bytes)
    }

    pub const fn to_bytes(self) -> [u8; 16] {
        self.0
    }

    /// The GUID of a text such as "81212a96-09ed-4996-9471-8d729c8e69ed".
    pub const fn parse(text: &str) -> Self {
        const PLACES: [usize; 16] = [3, 2, 1, 0, 5, 4, 7, 6, 8, 9, 10, 11, 12, 13, 14, 15];
        let text = text.as_bytes();
        let mut bytes = [0; 16];
        let (mut at, mut place) = (0, 0);
        while place < 16 {
            if text[at] == b'-' {
                at += 1;
            }
            bytes[PLACES[place]] = digit(text[at]) << 4 | digit(text[at + 1]);
            at += 2;
            place += 1;
        }
        assert!(at == text.len());
        Guid(bytes)
    }
}

const fn digit(character: u8) -> u8 {
    match character {
        b'0'..=b'9' => character - b'0',
        b'a'..=b'f' => character - b'a' + 10,
        _ => panic!("not a lower-case hex digit"),
    }
}

impl fmt::Display for Guid {
    fn fmt(&self, f: &mut fmt::Formatter) -> fmt::Result {
        self.0.iter().try_for_each(|byte| write!(f, "{byte:02x}"))
    }
}

#[macro_export]
macro_rules! guid {
    ($text:literal) => {
        $crate::Guid::parse($text)
    };
}
