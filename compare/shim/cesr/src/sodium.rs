//! Ed25519 by libsodium.
use ::core::ffi::{c_int, c_uchar, c_ulonglong};
#[link(name = "sodium")]
unsafe extern "C" {
    fn sodium_init() -> c_int;
    fn crypto_generichash(out: *mut c_uchar, n: usize, m: *const c_uchar, mlen: c_ulonglong, key: *const c_uchar, keylen: usize) -> c_int;
    fn crypto_sign_seed_keypair(pk: *mut c_uchar, sk: *mut c_uchar, seed: *const c_uchar) -> c_int;
    fn crypto_sign_detached(sig: *mut c_uchar, siglen: *mut c_ulonglong, m: *const c_uchar, mlen: c_ulonglong, sk: *const c_uchar)
    -> c_int;
    fn crypto_sign_verify_detached(sig: *const c_uchar, m: *const c_uchar, mlen: c_ulonglong, pk: *const c_uchar) -> c_int;
    fn crypto_hash_sha512(out: *mut c_uchar, m: *const c_uchar, mlen: c_ulonglong) -> c_int;
    fn crypto_core_ed25519_scalar_reduce(r: *mut c_uchar, s: *const c_uchar);
    fn crypto_core_ed25519_scalar_mul(z: *mut c_uchar, x: *const c_uchar, y: *const c_uchar);
    fn crypto_core_ed25519_scalar_add(z: *mut c_uchar, x: *const c_uchar, y: *const c_uchar);
    fn crypto_scalarmult_ed25519_base_noclamp(q: *mut c_uchar, n: *const c_uchar) -> c_int;
}
pub fn init() {
    unsafe {
        assert!(sodium_init() >= 0);
    }
}
pub fn keypair(seed: &[u8; 32]) -> ([u8; 32], [u8; 64]) {
    let (mut pk, mut sk) = ([0u8; 32], [0u8; 64]);
    unsafe {
        assert_eq!(crypto_sign_seed_keypair(pk.as_mut_ptr(), sk.as_mut_ptr(), seed.as_ptr()), 0);
    }
    (pk, sk)
}
pub fn sign(m: &[u8], sk: &[u8; 64]) -> [u8; 64] {
    let mut s = [0u8; 64];
    unsafe {
        assert_eq!(crypto_sign_detached(s.as_mut_ptr(), ::core::ptr::null_mut(), m.as_ptr(), m.len() as u64, sk.as_ptr()), 0);
    }
    s
}
pub fn verify(sig: &[u8], m: &[u8], pk: &[u8]) -> bool {
    if sig.len() != 64 || pk.len() != 32 {
        return false;
    }
    unsafe { crypto_sign_verify_detached(sig.as_ptr(), m.as_ptr(), m.len() as u64, pk.as_ptr()) == 0 }
}
pub fn sha512(m: &[u8]) -> [u8; 64] {
    let mut o = [0u8; 64];
    unsafe {
        crypto_hash_sha512(o.as_mut_ptr(), m.as_ptr(), m.len() as u64);
    }
    o
}
/// A second, different, valid signature: another nonce (`salt`) than the deterministic one.
pub fn sign_other_nonce(m: &[u8], seed: &[u8; 32], pk: &[u8; 32], salt: u64) -> [u8; 64] {
    let h = sha512(seed);
    let mut a = [0u8; 32];
    a.copy_from_slice(&h[..32]);
    a[0] &= 248;
    a[31] &= 127;
    a[31] |= 64;
    let mut a64 = [0u8; 64];
    a64[..32].copy_from_slice(&a);
    let mut nonce_in = Vec::from(&h[32..]);
    nonce_in.extend_from_slice(&salt.to_le_bytes());
    nonce_in.extend_from_slice(m);
    let r64 = sha512(&nonce_in);
    let (mut ar, mut r, mut rp, mut k, mut ka, mut s) = ([0u8; 32], [0u8; 32], [0u8; 32], [0u8; 32], [0u8; 32], [0u8; 32]);
    unsafe {
        crypto_core_ed25519_scalar_reduce(ar.as_mut_ptr(), a64.as_ptr());
        crypto_core_ed25519_scalar_reduce(r.as_mut_ptr(), r64.as_ptr());
        assert_eq!(crypto_scalarmult_ed25519_base_noclamp(rp.as_mut_ptr(), r.as_ptr()), 0);
        let mut hin = Vec::from(&rp[..]);
        hin.extend_from_slice(pk);
        hin.extend_from_slice(m);
        let k64 = sha512(&hin);
        crypto_core_ed25519_scalar_reduce(k.as_mut_ptr(), k64.as_ptr());
        crypto_core_ed25519_scalar_mul(ka.as_mut_ptr(), k.as_ptr(), ar.as_ptr());
        crypto_core_ed25519_scalar_add(s.as_mut_ptr(), r.as_ptr(), ka.as_ptr());
    }
    let mut out = [0u8; 64];
    out[..32].copy_from_slice(&rp);
    out[32..].copy_from_slice(&s);
    out
}
pub fn digest(m: &[u8]) -> [u8; 32] {
    let mut out = [0u8; 32];
    unsafe {
        assert_eq!(crypto_generichash(out.as_mut_ptr(), 32, m.as_ptr(), m.len() as u64, ::core::ptr::null(), 0), 0);
    }
    out
}
