//! Stands in for the authority over key events, which the host judges: no fold of registries and credentials comes here.
use crate::error::Rejection;
use cesr::core::primitives::Siger;
use keri_events::{BasicPrefix, Digest, InceptionEvent, RotationEvent, SigningThreshold, Toad, VerifyingKey};
pub struct Authority<'e>(&'e [VerifyingKey<'e>], &'e SigningThreshold);
impl<'e> Authority<'e> {
    pub const fn new(k: &'e [VerifyingKey<'e>], t: &'e SigningThreshold) -> Self {
        Self(k, t)
    }
    pub fn well_formed(&self) -> Result<(), Rejection> {
        let _ = (self.0, self.1);
        unreachable!("key events are judged by the host")
    }
    pub fn verify(&self, _: &[u8], _: &[Siger<'_>]) -> Result<(), Rejection> {
        unreachable!("key events are judged by the host")
    }
}
pub struct Commitment<'e>(&'e [Digest<'e>], &'e SigningThreshold);
impl<'e> Commitment<'e> {
    pub const fn new(k: &'e [Digest<'e>], t: &'e SigningThreshold) -> Self {
        Self(k, t)
    }
    pub fn verify_opening(&self, _: &Authority<'_>, _: &[u8], _: &[Siger<'_>]) -> Result<(), Rejection> {
        let _ = (self.0, self.1);
        unreachable!("key events are judged by the host")
    }
}
pub struct Witnessing<'e>(&'e [BasicPrefix<'e>], Toad);
impl<'e> Witnessing<'e> {
    pub const fn new(w: &'e [BasicPrefix<'e>], t: Toad) -> Self {
        Self(w, t)
    }
    pub fn receipted_by(&self, _: &[u8], _: &[Siger<'_>]) -> Result<(), Rejection> {
        let _ = (self.0, self.1);
        unreachable!("key events are judged by the host")
    }
}
pub trait Establishment {
    fn authority(&self) -> Authority<'_>;
}
impl Establishment for InceptionEvent<'_> {
    fn authority(&self) -> Authority<'_> {
        Authority::new(self.keys(), self.threshold())
    }
}
impl Establishment for RotationEvent<'_> {
    fn authority(&self) -> Authority<'_> {
        Authority::new(self.keys(), self.threshold())
    }
}
