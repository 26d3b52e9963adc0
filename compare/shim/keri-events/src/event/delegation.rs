//! Stand-ins that carry data; none is made here.
use crate::{Identifier, InceptionEvent, MessageType, RotationEvent};
#[derive(Clone, Debug, PartialEq, Eq)]
pub struct DelegatedInceptionEvent<'a> { pub inception: InceptionEvent<'a>, pub delegator: Identifier<'a> }
impl<'a> DelegatedInceptionEvent<'a> {
    pub const MESSAGE_TYPE: MessageType = MessageType::Dip;
    pub const fn inception(&self) -> &InceptionEvent<'a> { &self.inception }
    pub const fn delegator(&self) -> &Identifier<'a> { &self.delegator }
    pub fn into_static(self) -> DelegatedInceptionEvent<'static> { unreachable!("key events are judged by the host") }
}
#[derive(Clone, Debug, PartialEq, Eq)]
pub struct DelegatedRotationEvent<'a> { pub rotation: RotationEvent<'a> }
impl<'a> DelegatedRotationEvent<'a> {
    pub const MESSAGE_TYPE: MessageType = MessageType::Drt;
    pub const fn rotation(&self) -> &RotationEvent<'a> { &self.rotation }
    pub fn into_static(self) -> DelegatedRotationEvent<'static> { unreachable!("key events are judged by the host") }
}
