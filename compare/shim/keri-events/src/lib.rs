//! The given files of this crate (build.rs places them), and stand-ins for those of its modules that were not given: they carry data.
#![allow(unused_imports, missing_docs)]
extern crate alloc;

pub mod error;
pub mod message_type;
pub mod primitive;
include!(concat!(env!("OUT_DIR"), "/modules.rs"));

pub use acdc::{Acdc, AcdcField, SadBlock};
pub use config::ConfigTrait;
pub use error::{InceptionIdentityError, KeriError};
pub use event::*;
pub use identifier::Identifier;
pub use member_set::{MemberSet, MemberSetError};
pub use message_type::MessageType;
pub use primitive::{BasicPrefix, Digest, Said, VerifyingKey};
pub use seal::{OpaqueSeal, Seal};
pub use tel::*;
pub use threshold::{SigningThreshold, SigningThresholdError, WeightedThreshold};
pub use toad::{Toad, ToadError};
