//! A stand-in that carries data.
use crate::{Identifier, MessageType, Said, Seal};
use alloc::vec::Vec;
use cesr::core::primitives::Number;
#[derive(Clone, Debug, PartialEq, Eq)]
pub struct InteractionEvent<'a> { pub prefix: Identifier<'a>, pub sn: Number, pub said: Said<'a>, pub prior: Said<'a>, pub anchors: Vec<Seal<'a>> }
impl<'a> InteractionEvent<'a> {
    pub const MESSAGE_TYPE: MessageType = MessageType::Ixn;
    pub const fn prefix(&self) -> &Identifier<'a> { &self.prefix }
    pub const fn sn(&self) -> Number { self.sn }
    pub const fn said(&self) -> &Said<'a> { &self.said }
    pub const fn prior_event_said(&self) -> &Said<'a> { &self.prior }
    pub fn anchors(&self) -> &[Seal<'a>] { &self.anchors }
    pub fn into_static(self) -> InteractionEvent<'static> { unreachable!("key events are judged by the host") }
}
