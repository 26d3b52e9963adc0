//! A stand-in that carries data.
use crate::{BasicPrefix, Digest, Identifier, MessageType, Said, Seal, SigningThreshold, Toad, VerifyingKey};
use alloc::vec::Vec;
use cesr::core::primitives::Number;
#[derive(Clone, Debug, PartialEq, Eq)]
pub struct RotationEvent<'a> {
    pub prefix: Identifier<'a>, pub sn: Number, pub said: Said<'a>, pub prior: Said<'a>, pub keys: Vec<VerifyingKey<'a>>,
    pub threshold: SigningThreshold, pub next_keys: Vec<Digest<'a>>, pub next_threshold: SigningThreshold,
    pub removals: Vec<BasicPrefix<'a>>, pub additions: Vec<BasicPrefix<'a>>, pub witness_threshold: Toad, pub anchors: Vec<Seal<'a>>,
}
impl<'a> RotationEvent<'a> {
    pub const MESSAGE_TYPE: MessageType = MessageType::Rot;
    pub const fn prefix(&self) -> &Identifier<'a> { &self.prefix }
    pub const fn sn(&self) -> Number { self.sn }
    pub const fn said(&self) -> &Said<'a> { &self.said }
    pub const fn prior_event_said(&self) -> &Said<'a> { &self.prior }
    pub fn keys(&self) -> &[VerifyingKey<'a>] { &self.keys }
    pub const fn threshold(&self) -> &SigningThreshold { &self.threshold }
    pub fn next_keys(&self) -> &[Digest<'a>] { &self.next_keys }
    pub const fn next_threshold(&self) -> &SigningThreshold { &self.next_threshold }
    pub fn witness_removals(&self) -> &[BasicPrefix<'a>] { &self.removals }
    pub fn witness_additions(&self) -> &[BasicPrefix<'a>] { &self.additions }
    pub const fn witness_threshold(&self) -> Toad { self.witness_threshold }
    pub fn anchors(&self) -> &[Seal<'a>] { &self.anchors }
    pub fn into_static(self) -> RotationEvent<'static> { unreachable!("key events are judged by the host") }
}
