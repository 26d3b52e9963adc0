//! Digests and prefixes: a code letter of CESR and 32 bytes.
use std::error::Error;
use std::fmt;

/// How many bytes a primitive has.
pub const PRIMITIVE_BYTES: usize = 33;

/// A code letter that does not belong to the role.
#[derive(Debug, Clone, Copy, PartialEq, Eq)]
pub struct WrongLetter {
    /// The letter that was given.
    pub letter: u8,
    /// The letters of the role.
    pub allowed: &'static str,
}

impl fmt::Display for WrongLetter {
    fn fmt(&self, f: &mut fmt::Formatter<'_>) -> fmt::Result {
        write!(f, "the code letter {:?} is none of {}", char::from(self.letter), self.allowed)
    }
}

impl Error for WrongLetter {}

/// A role of primitives: which letters it has.
macro_rules! role {
    ($(#[$doc:meta])* $name:ident, $letters:literal) => {
        $(#[$doc])*
        #[derive(Clone, Copy, PartialEq, Eq, PartialOrd, Ord, Hash)]
        pub struct $name([u8; PRIMITIVE_BYTES]);

        impl $name {
            /// The code letters of this role.
            pub const LETTERS: &'static str = $letters;

            /// The primitive of a letter and 32 bytes. Another letter than those of the role is refused.
            pub fn new(letter: u8, bytes: [u8; 32]) -> Result<$name, WrongLetter> {
                let mut all = [letter; PRIMITIVE_BYTES];
                all[1..].copy_from_slice(&bytes);
                $name::try_from(all)
            }

            /// The letter and the 32 bytes.
            pub fn as_bytes(&self) -> &[u8; PRIMITIVE_BYTES] {
                &self.0
            }
        }

        impl TryFrom<[u8; PRIMITIVE_BYTES]> for $name {
            type Error = WrongLetter;

            fn try_from(bytes: [u8; PRIMITIVE_BYTES]) -> Result<$name, WrongLetter> {
                if $letters.as_bytes().contains(&bytes[0]) {
                    Ok($name(bytes))
                } else {
                    Err(WrongLetter { letter: bytes[0], allowed: $letters })
                }
            }
        }

        impl fmt::Display for $name {
            fn fmt(&self, f: &mut fmt::Formatter<'_>) -> fmt::Result {
                write_primitive(f, &self.0)
            }
        }

        impl fmt::Debug for $name {
            fn fmt(&self, f: &mut fmt::Formatter<'_>) -> fmt::Result {
                write_primitive(f, &self.0)
            }
        }
    };
}

role! {
    /// A digest that names the content over which it was computed. The letters are those of BLAKE3, BLAKE2b, BLAKE2s, SHA3 and SHA2.
    ///
    /// ```
    /// use jamfell::Said;
    /// let said = Said::new(b'E', [7; 32]).unwrap();
    /// assert_eq!(said.as_bytes()[0], b'E');
    /// assert!(Said::new(b'B', [7; 32]).is_err());
    /// ```
    Said, "EFGHI"
}

role! {
    /// A public key as an identifier: an Ed25519 key, B where it can't be rotated and D where it can.
    BasicPrefix, "BD"
}

/// The identifier of a party: a public key, or the digest of its first event.
#[derive(Clone, Copy, PartialEq, Eq, PartialOrd, Ord, Hash, Debug)]
pub enum Identifier {
    /// A public key.
    Basic(BasicPrefix),
    /// A digest.
    SelfAddressing(Said),
}

impl Identifier {
    /// The letter and the 32 bytes.
    pub fn as_bytes(&self) -> &[u8; PRIMITIVE_BYTES] {
        match self {
            Identifier::Basic(prefix) => prefix.as_bytes(),
            Identifier::SelfAddressing(said) => said.as_bytes(),
        }
    }
}

impl TryFrom<[u8; PRIMITIVE_BYTES]> for Identifier {
    type Error = WrongLetter;

    fn try_from(bytes: [u8; PRIMITIVE_BYTES]) -> Result<Identifier, WrongLetter> {
        let said = Said::try_from(bytes).map(Identifier::SelfAddressing);
        let basic = || BasicPrefix::try_from(bytes).map(Identifier::Basic);
        said.or_else(|_| basic()).map_err(|wrong| WrongLetter { allowed: "BDEFGHI", ..wrong })
    }
}

impl From<BasicPrefix> for Identifier {
    fn from(prefix: BasicPrefix) -> Identifier {
        Identifier::Basic(prefix)
    }
}

impl From<Said> for Identifier {
    fn from(said: Said) -> Identifier {
        Identifier::SelfAddressing(said)
    }
}

/// The letter, and the bytes in hexadecimal digits.
fn write_primitive(f: &mut fmt::Formatter<'_>, bytes: &[u8; PRIMITIVE_BYTES]) -> fmt::Result {
    write!(f, "{}:", char::from(bytes[0]))?;
    bytes[1..].iter().try_for_each(|byte| write!(f, "{byte:02x}"))
}

#[cfg(test)]
mod tests {
    use super::*;

    #[test]
    fn each_letter_has_its_roles() {
        for letter in 0..=255 {
            let bytes = [letter; PRIMITIVE_BYTES];
            let (said, basic) = (b"EFGHI".contains(&letter), b"BD".contains(&letter));
            assert_eq!(Said::try_from(bytes).is_ok(), said);
            assert_eq!(BasicPrefix::try_from(bytes).is_ok(), basic);
            assert_eq!(Identifier::try_from(bytes).is_ok(), said || basic);
        }
    }

    #[test]
    fn words() {
        let said = Said::new(b'E', [0xab; 32]).unwrap();
        assert_eq!(said.to_string(), format!("E:{}", "ab".repeat(32)));
        let wrong = Identifier::try_from([b'A'; PRIMITIVE_BYTES]).unwrap_err();
        assert_eq!(wrong.to_string(), "the code letter 'A' is none of BDEFGHI");
    }
}
