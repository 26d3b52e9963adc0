//! Stands in for the crate `cesr`, which was not given: primitives that carry a code and bytes, with the names and types that the given
//! files use, and the verification of signatures.
extern crate alloc;
pub mod core {
    pub mod matter {
        pub mod code {
            #[derive(Debug, Clone, Copy, PartialEq, Eq, Hash)]
            pub enum VerKeyCode {
                Ed25519N,
                Ed25519,
            }
            impl VerKeyCode {
                pub const fn is_transferable(&self) -> bool {
                    matches!(self, Self::Ed25519)
                }
                pub const fn letter(&self) -> u8 {
                    match self {
                        Self::Ed25519N => b'B',
                        Self::Ed25519 => b'D',
                    }
                }
                pub const fn from_letter(c: u8) -> Option<Self> {
                    match c {
                        b'B' => Some(Self::Ed25519N),
                        b'D' => Some(Self::Ed25519),
                        _ => None,
                    }
                }
            }
            #[derive(Debug, Clone, Copy, PartialEq, Eq, Hash)]
            #[allow(non_camel_case_types)]
            pub enum DigestCode {
                Blake3_256,
                Blake2b_256,
                Blake2s_256,
                SHA3_256,
                SHA2_256,
            }
            impl DigestCode {
                pub const fn letter(&self) -> u8 {
                    match self {
                        Self::Blake3_256 => b'E',
                        Self::Blake2b_256 => b'F',
                        Self::Blake2s_256 => b'G',
                        Self::SHA3_256 => b'H',
                        Self::SHA2_256 => b'I',
                    }
                }
                pub const fn from_letter(c: u8) -> Option<Self> {
                    match c {
                        b'E' => Some(Self::Blake3_256),
                        b'F' => Some(Self::Blake2b_256),
                        b'G' => Some(Self::Blake2s_256),
                        b'H' => Some(Self::SHA3_256),
                        b'I' => Some(Self::SHA2_256),
                        _ => None,
                    }
                }
            }
            #[derive(Debug, Clone, Copy, PartialEq, Eq, Hash)]
            pub enum SigCode {
                Ed25519,
            }
            impl SigCode {
                pub const fn as_str(&self) -> &'static str {
                    "A"
                }
            }
            #[derive(Debug, Clone, Copy, PartialEq, Eq, Hash)]
            pub struct OtherCode;
        }
        #[allow(clippy::module_inception)]
        pub mod matter {
            use alloc::borrow::Cow;
            #[derive(Debug, Clone, PartialEq, Eq, Hash)]
            pub struct Matter<'a, C> {
                code: C,
                raw: Cow<'a, [u8]>,
            }
            impl<'a, C> Matter<'a, C> {
                pub const fn from_parts(code: C, raw: Cow<'a, [u8]>) -> Self {
                    Self { code, raw }
                }
                pub const fn code(&self) -> &C {
                    &self.code
                }
                pub fn raw(&self) -> &[u8] {
                    &self.raw
                }
                pub fn into_static(self) -> Matter<'static, C> {
                    Matter { code: self.code, raw: Cow::Owned(self.raw.into_owned()) }
                }
            }
        }
    }
    pub mod primitives {
        use super::matter::code::{DigestCode, OtherCode, SigCode, VerKeyCode};
        use super::matter::matter::Matter;
        use alloc::borrow::Cow;
        pub type Verfer<'a> = Matter<'a, VerKeyCode>;
        pub type Saider<'a> = Matter<'a, DigestCode>;
        pub type Diger<'a> = Matter<'a, DigestCode>;
        pub type Noncer<'a> = Matter<'a, OtherCode>;
        pub type Verser<'a> = Matter<'a, OtherCode>;
        #[derive(Debug, Clone, Copy, PartialEq, Eq, PartialOrd, Ord, Hash)]
        pub struct Number(u128);
        impl Number {
            pub const fn new(n: u128) -> Self {
                Self(n)
            }
            pub const fn value(&self) -> u128 {
                self.0
            }
        }
        #[derive(Debug, Clone, PartialEq, Eq)]
        pub struct Siger<'a> {
            code: SigCode,
            index: u32,
            ondex: Option<u32>,
            raw: Cow<'a, [u8]>,
        }
        impl<'a> Siger<'a> {
            pub const fn from_parts(index: u32, ondex: Option<u32>, raw: Cow<'a, [u8]>) -> Self {
                Self { code: SigCode::Ed25519, index, ondex, raw }
            }
            pub const fn code(&self) -> SigCode {
                self.code
            }
            pub const fn index(&self) -> u32 {
                self.index
            }
            pub const fn ondex(&self) -> Option<u32> {
                self.ondex
            }
            pub fn raw(&self) -> &[u8] {
                &self.raw
            }
        }
    }
}
pub mod crypto;
pub mod sodium;
