//! Stands in for the roles over a primitive.
use cesr::core::matter::code::{DigestCode, VerKeyCode};
use cesr::core::matter::matter::Matter;
macro_rules! role {
    ($name:ident, $code:ty) => {
        #[derive(Debug, Clone, PartialEq, Eq)]
        pub struct $name<'a>(Matter<'a, $code>);
        impl<'a> $name<'a> {
            pub const fn new(m: Matter<'a, $code>) -> Self {
                Self(m)
            }
            pub const fn as_matter(&self) -> &Matter<'a, $code> {
                &self.0
            }
            pub const fn code(&self) -> &$code {
                self.0.code()
            }
            pub fn raw(&self) -> &[u8] {
                self.0.raw()
            }
            pub fn into_static(self) -> $name<'static> {
                $name(self.0.into_static())
            }
        }
    };
}
role!(BasicPrefix, VerKeyCode);
role!(VerifyingKey, VerKeyCode);
role!(Said, DigestCode);
role!(Digest, DigestCode);
