//! Stands in for the delegation of key events: no fold of registries and credentials comes here.
use crate::error::DelegationError;
use keri_events::{Identifier, KeriEvent};
pub struct DelegationEvidence<'e>(pub core::marker::PhantomData<&'e ()>);
impl DelegationEvidence<'_> {
    pub fn authorizes(&self, _: &KeriEvent<'_>, _: &Identifier<'_>) -> Result<(), DelegationError> {
        unreachable!("key events are judged by the host")
    }
}
