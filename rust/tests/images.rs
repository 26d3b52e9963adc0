//! Images: what is written is read again as the same ledger, and what is damaged is refused, or is the image of another ledger.
mod common;

use common::lent::Side;
use common::raw::{Host, EMPTY};
use common::recorded::runs;
use common::world::{bytes, every_kind, filling, full_key, ledger};
use common::Random;
use jamfell::{Ledger, Refusal, Standing, IMAGE_BYTES_MAX};

/// The ledger of the recorded runs, each at its end.
fn ledgers() -> Vec<Ledger> {
    let after = |attempts: Vec<&[u8]>| {
        let mut ledger = Ledger::new();
        for attempt in attempts {
            let _ = ledger.apply(attempt);
        }
        ledger
    };
    let mut ledgers: Vec<_> = runs().iter().map(|run| after(run.attempts().0)).collect();
    ledgers.push(after(filling().iter().map(Vec::as_slice).collect()));
    ledgers
}

#[test]
fn round_trips() {
    for ledger in ledgers() {
        let image = ledger.to_image().unwrap();
        let read = Ledger::from_image(&image).unwrap();
        assert_eq!(read.to_image().unwrap(), image);
        assert_eq!(read.registry_count(), ledger.registry_count());
        assert_eq!(read.credential_count(), ledger.credential_count());
    }
}

/// An image answers to later attempts as the ledger does.
#[test]
fn a_ledger_goes_on_from_its_image() {
    for run in runs() {
        let (mut held, mut read) = (Ledger::new(), Ledger::new());
        for attempt in run.attempts().0 {
            assert_eq!(read.apply(attempt), held.apply(attempt), "{}", run.name);
            read = Ledger::from_image(&read.to_image().unwrap()).unwrap();
        }
        assert_eq!(read.to_image(), held.to_image());
    }
}

#[test]
fn the_smallest_and_the_largest() {
    assert_eq!(Ledger::new().to_image().unwrap(), [0; 4]);
    let full = ledgers().pop().unwrap();
    let image = full.to_image().unwrap();
    // 15 registries of the largest size and one without backers, whose state has 122 bytes.
    assert_eq!(image.len(), IMAGE_BYTES_MAX - 657 + 122);
    let read = Ledger::from_image(&image).unwrap();
    assert_eq!(read.standing(&full_key(1)), Ok(Standing::Issued));
    assert_eq!(read.standing(&full_key(255)), Ok(Standing::Revoked));
    assert_eq!(read.standing(&full_key(256)), Ok(Standing::Unknown));
}

/// The largest image there can be: each registry with 8 traits and 16 backers, and 256 credentials.
#[test]
fn an_image_of_the_largest_size() {
    let largest = ledgers().pop().unwrap().to_image().unwrap();
    let registry = |number: u8| {
        let mut state = largest[2..2 + 657].to_vec();
        state[1..33].fill(number);
        state
    };
    let mut image = vec![0, 16];
    image.extend((0..16).flat_map(registry));
    image.extend([1, 0]);
    for number in 0..=255 {
        let mut row = largest[largest.len() - 115..].to_vec();
        row[1..33].fill(number % 16);
        row[34..66].fill(number);
        image.extend(row);
    }
    assert_eq!(image.len(), IMAGE_BYTES_MAX);
    assert_eq!(Ledger::from_image(&image).unwrap().to_image().unwrap(), image);
}

#[test]
fn a_buffer_that_is_too_short() {
    let ledger = ledger(every_kind());
    let image = ledger.to_image().unwrap();
    for room in 0..image.len() {
        let mut out = vec![EMPTY; room];
        assert_eq!(ledger.write_image(&mut out).unwrap_err().refusal, Refusal::ShortBuffer);
        assert!(out.iter().all(|byte| *byte == EMPTY));
    }
    let mut out = vec![EMPTY; image.len() + 50];
    assert_eq!(ledger.write_image(&mut out), Ok(image.len()));
    assert_eq!(out[..image.len()], image);
    assert!(out[image.len()..].iter().all(|byte| *byte == EMPTY));
}

/// Reads an image over the ledger of another, and answers whether it was read. A refused one leaves the ledger that is held, and (as
/// `Host` holds it to) every byte of its block.
fn is_read(host: &mut Host, held: &[u8], image: &[u8]) -> bool {
    assert_eq!(host.read_image(held).number, 0);
    let read = host.read_image(image).number == 0;
    let (written, out) = host.write_image(IMAGE_BYTES_MAX);
    let now = &out[..written.values[0] as usize];
    assert_eq!(now, if read { image } else { held });
    read
}

#[test]
fn damaged_images() {
    let image = ledger(every_kind()).to_image().unwrap();
    let held = ledger(every_kind().into_iter().take(3)).to_image().unwrap();
    let mut random = Random::new(5);
    let mut host = Host::new(Side::End);
    let mut read = 0;
    for at in 0..image.len() {
        let mut damaged = image.clone();
        damaged[at] ^= 1 << random.below(8);
        read += usize::from(is_read(&mut host, &held, &damaged));
        assert!(!is_read(&mut host, &held, &image[..at]));
    }
    assert!(!is_read(&mut host, &held, &[&image[..], &[0]].concat()));
    assert!(is_read(&mut host, &held, &image));
    assert!(0 < read && read < image.len(), "both are met: {read} of {} are read", image.len());
}

/// A ledger that is replaced is not judged: an image goes over any bytes.
#[test]
fn an_image_over_any_bytes() {
    let image = ledger(every_kind()).to_image().unwrap();
    let mut random = Random::new(6);
    let mut host = Host::new(Side::Start);
    for _ in 0..200 {
        random.fill(host.ledger.bytes_mut());
        assert_eq!(host.read_image(&image).number, 0);
        let (written, out) = host.write_image(image.len());
        assert_eq!((written.number, out), (0, image.clone()));
        assert_eq!(host.apply(&bytes(common::world::vcp())).number, 3);
    }
}

#[test]
fn replacing_a_held_ledger() {
    let mut held = ledger(every_kind());
    let before = held.to_image().unwrap();
    assert_eq!(Ledger::from_image(b"no image").unwrap_err().refusal, Refusal::Malformed);
    assert_eq!(held.read_image(b"no image").unwrap_err().refusal, Refusal::Malformed);
    assert_eq!(held.to_image().unwrap(), before);
    held.read_image(&[0; 4]).unwrap();
    assert_eq!((held.registry_count(), held.credential_count()), (0, 0));
}
