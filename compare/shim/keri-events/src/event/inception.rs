//! A stand-in that carries data.
use crate::{BasicPrefix, ConfigTrait, Digest, Identifier, InceptionIdentityError, MessageType, Said, Seal, SigningThreshold, Toad, VerifyingKey};
use alloc::vec::Vec;
use cesr::core::primitives::Number;
#[derive(Clone, Debug, PartialEq, Eq)]
pub struct InceptionEvent<'a> {
    pub prefix: Identifier<'a>, pub sn: Number, pub said: Said<'a>, pub keys: Vec<VerifyingKey<'a>>,
    pub threshold: SigningThreshold, pub next_keys: Vec<Digest<'a>>, pub next_threshold: SigningThreshold,
    pub witnesses: Vec<BasicPrefix<'a>>, pub witness_threshold: Toad, pub config: Vec<ConfigTrait>, pub anchors: Vec<Seal<'a>>,
}
impl<'a> InceptionEvent<'a> {
    pub const MESSAGE_TYPE: MessageType = MessageType::Icp;
    pub const fn prefix(&self) -> &Identifier<'a> { &self.prefix }
    pub const fn sn(&self) -> Number { self.sn }
    pub const fn said(&self) -> &Said<'a> { &self.said }
    pub fn keys(&self) -> &[VerifyingKey<'a>] { &self.keys }
    pub const fn threshold(&self) -> &SigningThreshold { &self.threshold }
    pub fn next_keys(&self) -> &[Digest<'a>] { &self.next_keys }
    pub const fn next_threshold(&self) -> &SigningThreshold { &self.next_threshold }
    pub fn witnesses(&self) -> &[BasicPrefix<'a>] { &self.witnesses }
    pub const fn witness_threshold(&self) -> Toad { self.witness_threshold }
    pub fn config(&self) -> &[ConfigTrait] { &self.config }
    pub fn anchors(&self) -> &[Seal<'a>] { &self.anchors }
    pub fn check_identity(&self) -> Result<(), InceptionIdentityError> { unreachable!("key events are judged by the host") }
    pub fn into_static(self) -> InceptionEvent<'static> { unreachable!("key events are judged by the host") }
}
