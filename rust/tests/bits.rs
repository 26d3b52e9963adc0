//! Every pattern of bits in a block gets an answer: 1 where it breaks a reading rule, a proper one where it does not, and after a
//! refusal no byte of the block has changed (`Host` holds each call to that).
mod common;

use common::lent::Side;
use common::raw::{Answer, Host};
use common::recorded::runs;
use common::world::{bytes, every_kind, filling, full_key, said, vrt_of};
use common::Random;
use jamfell::sys::LEDGER_BYTES;

const ROOM: usize = jamfell::IMAGE_BYTES_MAX;

/// Attempts of every kind, sound ones and recorded ones, and some that are none.
fn attempts() -> Vec<Vec<u8>> {
    let mut attempts: Vec<_> = every_kind().map(bytes).into();
    attempts.push(bytes(vrt_of(7, 1, vec![], vec![])));
    attempts.extend(runs().iter().flat_map(|run| run.attempts().0.into_iter().take(40).map(<[u8]>::to_vec)));
    attempts
}

/// Makes all calls on the block. Where they find it sound, it can be written and read again.
fn ask_all(host: &mut Host, attempt: &[u8]) -> bool {
    let key = full_key(0);
    let known = host.look_up(key.registry.as_bytes(), key.credential.as_bytes()).number;
    let (written, _) = host.write_image(ROOM);
    let applied = host.apply(attempt).number;
    assert_eq!(known, written.number, "the look-up and the image judge the block alike");
    if known == 1 {
        assert_eq!(applied, 1);
        return false;
    }
    let (written, out) = host.write_image(ROOM);
    assert_eq!(written.number, 0, "after {applied} the ledger is sound");
    assert_eq!(host.read_image(&out[..written.values[0] as usize]).number, 0);
    true
}

#[test]
fn bytes_at_random() {
    let mut random = Random::new(1);
    let attempts = attempts();
    let mut host = Host::new(Side::End);
    for _ in 0..2000 {
        random.fill(host.ledger.bytes_mut());
        // Counts at random are above the limits, so some are made small.
        if random.below(4) > 0 {
            set_counts(&mut host, random.below(18), random.below(258));
        }
        ask_all(&mut host, &attempts[random.below(attempts.len())]);
    }
}

/// With counts of 0 whatever stands behind them is not of the ledger.
#[test]
fn an_empty_ledger_in_any_bytes() {
    let mut random = Random::new(2);
    let mut host = Host::new(Side::Start);
    for _ in 0..500 {
        random.fill(host.ledger.bytes_mut());
        set_counts(&mut host, 0, 0);
        for event in every_kind() {
            assert_eq!(host.apply(&bytes(event)).number, 0);
        }
        assert!(ask_all(&mut host, &[]));
    }
}

/// Both counts become 0, and nothing else changes.
#[test]
fn made_empty() {
    let mut random = Random::new(8);
    let mut host = Host::new(Side::End);
    random.fill(host.ledger.bytes_mut());
    let mut expected = host.ledger.bytes().to_vec();
    expected[12928..12936].fill(0);
    expected[47752..].fill(0);
    host.empty();
    assert!(host.ledger.bytes() == expected);
}

/// Keys of each length, and with each letter: only two saids of 33 bytes are a key.
#[test]
fn keys() {
    let mut host = Host::new(Side::End);
    let whole = said(1).as_bytes().to_vec();
    let longer = [&whole[..], &[0; 7]].concat();
    for size in 0..longer.len() {
        let expected = u8::from(size != 33);
        assert_eq!(host.look_up(&longer[..size], &whole).number, expected);
        assert_eq!(host.look_up(&whole, &longer[..size]).number, expected);
    }
    for letter in 0..=255 {
        let other = [&[letter], &whole[1..]].concat();
        let expected = u8::from(!b"EFGHI".contains(&letter));
        assert_eq!(host.look_up(&other, &whole).number, expected);
        assert_eq!(host.look_up(&whole, &other).number, expected);
    }
}

/// A ledger that breaks a rule is refused before a buffer that is too short.
#[test]
fn a_broken_ledger_and_a_short_buffer() {
    let mut host = Host::new(Side::End);
    for room in 0..10 {
        set_counts(&mut host, 0, 0);
        assert_eq!(host.write_image(room).0.number, if room < 4 { 30 } else { 0 });
        set_counts(&mut host, 17, 0);
        assert_eq!(host.write_image(room).0.number, 1);
    }
}

/// The places of both counts and of the first so many registries and rows.
fn used(held: usize) -> Vec<usize> {
    let places = [0..808 * held.min(16), 12928..12936 + 136 * held, 47752..LEDGER_BYTES];
    places.into_iter().flatten().collect()
}

/// One bit of a sound block changed, anywhere among the states that are held and the counts.
#[test]
fn one_bit_changed() {
    let mut random = Random::new(3);
    let attempts = attempts();
    for (side, whole, held) in [(Side::Start, small_block(), 2), (Side::End, full_block(), 256)] {
        let mut host = Host::new(side);
        let places = used(held);
        let (mut refused, mut sound) = (0, 0);
        for _ in 0..4000 {
            host.ledger.lend_copy(&whole);
            let at = places[random.below(places.len())];
            host.ledger.bytes_mut()[at] ^= 1 << random.below(8);
            match ask_all(&mut host, &attempts[random.below(attempts.len())]) {
                true => sound += 1,
                false => refused += 1,
            }
        }
        assert!(refused > 100 && sound > 100, "both are met: {refused} refused, {sound} sound");
    }
}

/// Whether the image is the same when the byte at a place is another.
fn is_free(host: &mut Host, image: &(Answer, Vec<u8>), at: usize) -> bool {
    host.ledger.bytes_mut()[at] ^= 0xff;
    let free = host.write_image(ROOM) == *image;
    host.ledger.bytes_mut()[at] ^= 0xff;
    free
}

/// The bytes that the image does not show: those behind the counts, and what a struct leaves free between its fields. They change no
/// answer, and a refusal keeps these, too, whatever they are.
#[test]
fn bytes_that_no_image_shows() {
    let mut random = Random::new(4);
    let attempts = attempts();
    let (mut host, mut clean) = (Host::new(Side::End), Host::new(Side::Start));
    let whole = small_block();
    host.ledger.lend_copy(&whole);
    let image = host.write_image(ROOM);
    let used = used(2);
    let between: Vec<_> = used.iter().copied().filter(|at| is_free(&mut host, &image, *at)).collect();
    assert!(between.len() > 100, "{} bytes are free between fields", between.len());
    let behind = (0..LEDGER_BYTES).filter(|at| !used.contains(at));
    let free: Vec<_> = behind.chain(between).collect();
    for _ in 0..500 {
        host.ledger.lend_copy(&whole);
        clean.ledger.lend_copy(&whole);
        free.iter().for_each(|at| host.ledger.bytes_mut()[*at] = random.next() as u8);
        for _ in 0..8 {
            let attempt = &attempts[random.below(attempts.len())];
            assert_eq!(host.apply(attempt), clean.apply(attempt));
            assert_eq!(host.write_image(ROOM), clean.write_image(ROOM));
        }
    }
}

/// Where the counts stand, and that every one above its limit is refused.
#[test]
fn counts_above_their_limits() {
    let mut host = Host::new(Side::End);
    let counts = [17, 255, 256, 1 << 16, 1 << 32, usize::MAX];
    for registries in counts {
        set_counts(&mut host, registries, 0);
        assert!(!ask_all(&mut host, &[]));
    }
    for rows in counts.iter().map(|count| (*count).max(257)) {
        set_counts(&mut host, 0, rows);
        assert!(!ask_all(&mut host, &[]));
    }
    set_counts(&mut host, 0, 0);
    assert!(ask_all(&mut host, &bytes(common::world::vcp())));
}

fn set_counts(host: &mut Host, registries: usize, rows: usize) {
    host.ledger.bytes_mut()[12928..12936].copy_from_slice(&registries.to_le_bytes());
    host.ledger.bytes_mut()[47752..].copy_from_slice(&rows.to_le_bytes());
}

fn block_after(attempts: impl IntoIterator<Item = Vec<u8>>) -> Vec<u8> {
    let mut host = Host::new(Side::Start);
    attempts.into_iter().for_each(|attempt| assert_eq!(host.apply(&attempt).number, 0));
    host.ledger.bytes().to_vec()
}

/// Two registries and two credentials.
fn small_block() -> Vec<u8> {
    block_after(every_kind().map(bytes))
}

/// 16 registries and 256 credentials, which use every byte of the block to its end.
fn full_block() -> Vec<u8> {
    let block = block_after(filling());
    assert_eq!(block[47752..], 256usize.to_le_bytes());
    assert_eq!(block[12928..12936], 16usize.to_le_bytes());
    block
}

/// A full ledger holds what it was given, and no more goes in.
#[test]
fn a_full_ledger() {
    let mut host = Host::new(Side::End);
    host.ledger.lend_copy(&full_block());
    for number in 0..256 {
        let key = full_key(number);
        let standing = if number % 3 == 0 { 2 } else { 1 };
        let answer = host.look_up(key.registry.as_bytes(), key.credential.as_bytes());
        assert_eq!((answer.number, answer.values), (0, vec![standing]));
    }
    assert_eq!(host.apply(&bytes(common::world::vcp())).number, 29);
    assert_eq!(host.apply(&bytes(common::world::iss())).number, 29);
    let unknown = host.look_up(said(1).as_bytes(), said(1).as_bytes());
    assert_eq!(unknown.values, [3]);
}
