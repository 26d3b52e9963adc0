//! What this example uses of libsodium: Ed25519 signatures, and BLAKE2b digests of 32 bytes.
use std::ffi::{c_int, c_ulonglong};
use std::ptr;

#[link(name = "sodium")]
extern "C" {
    fn sodium_init() -> c_int;
    fn crypto_sign_keypair(public: *mut u8, secret: *mut u8) -> c_int;
    fn crypto_sign_detached(
        signature: *mut u8,
        signature_size: *mut c_ulonglong,
        message: *const u8,
        message_size: c_ulonglong,
        secret: *const u8,
    ) -> c_int;
    fn crypto_sign_verify_detached(
        signature: *const u8,
        message: *const u8,
        message_size: c_ulonglong,
        public: *const u8,
    ) -> c_int;
    fn crypto_generichash(
        out: *mut u8,
        out_size: usize,
        message: *const u8,
        message_size: c_ulonglong,
        key: *const u8,
        key_size: usize,
    ) -> c_int;
}

pub struct KeyPair {
    pub public: [u8; 32],
    secret: [u8; 64],
}

/// Has to be called before all else.
pub fn init() {
    // SAFETY: it takes nothing.
    assert!(unsafe { sodium_init() } >= 0, "libsodium is not ready");
}

impl KeyPair {
    pub fn new() -> KeyPair {
        let mut pair = KeyPair { public: [0; 32], secret: [0; 64] };
        // SAFETY: libsodium's public keys have 32 bytes, and its secret keys 64.
        let failed = unsafe { crypto_sign_keypair(pair.public.as_mut_ptr(), pair.secret.as_mut_ptr()) };
        assert_eq!(failed, 0);
        pair
    }

    pub fn sign(&self, message: &[u8]) -> [u8; 64] {
        let mut signature = [0; 64];
        let (start, size) = (message.as_ptr(), message.len() as c_ulonglong);
        // SAFETY: a signature has 64 bytes, and its length need not be written.
        let failed =
            unsafe { crypto_sign_detached(signature.as_mut_ptr(), ptr::null_mut(), start, size, self.secret.as_ptr()) };
        assert_eq!(failed, 0);
        signature
    }
}

/// Whether the owner of a public key signed just this message.
pub fn verify(signature: &[u8; 64], message: &[u8], public: &[u8; 32]) -> bool {
    let (start, size) = (message.as_ptr(), message.len() as c_ulonglong);
    // SAFETY: a signature has 64 bytes, and a public key 32.
    unsafe { crypto_sign_verify_detached(signature.as_ptr(), start, size, public.as_ptr()) == 0 }
}

pub fn digest(message: &[u8]) -> [u8; 32] {
    let mut out = [0; 32];
    // SAFETY: a digest may have 32 bytes, and there need not be a key.
    let failed = unsafe {
        crypto_generichash(out.as_mut_ptr(), 32, message.as_ptr(), message.len() as c_ulonglong, ptr::null(), 0)
    };
    assert_eq!(failed, 0);
    out
}
