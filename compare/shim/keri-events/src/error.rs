//! A stand-in that carries data.
use alloc::string::String;
#[derive(Debug, thiserror::Error, PartialEq, Eq)]
pub enum KeriError {
    #[error("unknown config trait {0}")]
    UnknownConfigTrait(String),
}
#[derive(Debug, thiserror::Error, PartialEq, Eq)]
#[error("inception identity")]
pub struct InceptionIdentityError;
