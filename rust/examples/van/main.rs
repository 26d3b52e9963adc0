//! A van's host: it verifies the backers' Ed25519 signatures with libsodium, hands the verdicts over in attempts, and shows what the
//! ledger makes of them. A forged receipt does not count, so an event that needs it is refused and waits for another.
//!
//! ```text
//! cargo run --example van --features sodium
//! ```
//!
//! The issuer's key log is not part of it: its key events stand here as a host has them when it has accepted them.
mod sodium;

use jamfell::attempt::{AnchoringEvent, Attempt, Seal, Signature, TelEvent, TelEvidence};
use jamfell::{
    ample, BasicPrefix, Disposition, EvidenceKind, Identifier, Key, Ledger, Refusal, Refused, Said, Standing,
};
use sodium::KeyPair;

type Failure = Box<dyn std::error::Error>;

/// A signature over an event, with the position of the backer that is said to have made it.
#[derive(Clone, Copy)]
struct Receipt {
    index: usize,
    signature: [u8; 64],
}

/// What the van knows: the issuer, and the backers in the registry's order.
struct Van {
    issuer: Identifier,
    backers: Vec<KeyPair>,
}

impl Van {
    fn new(count: usize) -> Result<Van, Failure> {
        let issuer = BasicPrefix::new(b'D', KeyPair::new().public)?.into();
        Ok(Van { issuer, backers: (0..count).map(|_| KeyPair::new()).collect() })
    }

    fn prefixes(&self) -> Result<Vec<BasicPrefix>, Failure> {
        let prefix = |backer: &KeyPair| Ok(BasicPrefix::new(b'B', backer.public)?);
        self.backers.iter().map(prefix).collect()
    }

    /// The receipts of some backers for an event.
    fn receipts(&self, event: &TelEvent, indices: &[usize]) -> Result<Vec<Receipt>, Failure> {
        let bytes = event.to_bytes()?;
        let sign = |&index: &usize| Receipt { index, signature: self.backers[index].sign(&bytes) };
        Ok(indices.iter().map(sign).collect())
    }

    /// What the host finds of each receipt: whether the backer at its index signed just this event.
    fn verdicts(&self, event: &TelEvent, receipts: &[Receipt]) -> Result<Vec<Signature>, Failure> {
        let bytes = event.to_bytes()?;
        let judge = |receipt: &Receipt| {
            let backer = self.backers.get(receipt.index);
            let good = backer.is_some_and(|backer| sodium::verify(&receipt.signature, &bytes, &backer.public));
            Ok(Signature { index: receipt.index.try_into()?, good })
        };
        receipts.iter().map(judge).collect()
    }

    /// The event of the issuer's key log that anchors the event.
    fn key_event(&self, event: &TelEvent) -> Result<AnchoringEvent, Failure> {
        let said = Said::new(b'F', sodium::digest(event.said().as_bytes()))?;
        Ok(AnchoringEvent { prefix: self.issuer, sn: 1, said, seals: vec![event.seal()] })
    }

    /// Verifies the receipts, hands the verdicts over, and says what came of it.
    fn send(
        &self,
        ledger: &mut Ledger,
        what: &str,
        event: &TelEvent,
        receipts: &[Receipt],
    ) -> Result<Result<(), Refused>, Failure> {
        let verdicts = self.verdicts(event, receipts)?;
        let evidence = match event {
            TelEvent::RegistryInception { .. } => TelEvidence::Issuer { prefix: self.issuer, anchor: None },
            _ => TelEvidence::Backer,
        };
        let attempt = Attempt::new(event.clone())
            .anchored_by(self.key_event(event)?)
            .with_signatures(verdicts.clone())
            .with_evidence(evidence);
        let answer = ledger.apply(&attempt.to_bytes()?);
        println!("{what}");
        for verdict in verdicts {
            println!("    receipt of backer {}: {}", verdict.index, if verdict.good { "good" } else { "failed" });
        }
        match &answer {
            Ok(()) => println!("    accepted"),
            Err(refused) => println!("    {refused}"),
        }
        Ok(answer)
    }
}

/// An event whose said is the digest of the event with zeros in the said's place.
fn named(event: impl Fn(Said) -> TelEvent) -> Result<TelEvent, Failure> {
    let blank = event(Said::new(b'F', [0; 32])?).to_bytes()?;
    Ok(event(Said::new(b'F', sodium::digest(&blank))?))
}

/// Three receipts are needed, and one of three is not good: two count, and a third is awaited.
fn expect_27(answer: Result<(), Refused>) {
    let refused = answer.expect_err("a forged receipt does not count");
    assert_eq!(refused.refusal, Refusal::MissingBackerReceipts { valid: 2, required: 3 });
    let awaited = EvidenceKind::BackerReceipts { valid: 2, required: 3 };
    assert_eq!(refused.disposition, Disposition::Awaiting(awaited));
}

/// Three ways to forge the receipt of backer 2.
fn forgeries(van: &Van, event: &TelEvent, other: &TelEvent) -> Result<[(&'static str, Receipt); 3], Failure> {
    let bytes = event.to_bytes()?;
    let mut changed = van.receipts(event, &[2])?[0];
    changed.signature[5] ^= 1;
    let stranger = Receipt { index: 2, signature: KeyPair::new().sign(&bytes) };
    let replayed = van.receipts(other, &[2])?[0];
    Ok([
        ("bis, with a receipt that has one bit changed", changed),
        ("bis, with a receipt that a stranger signed", stranger),
        ("bis, with a receipt of another event", replayed),
    ])
}

fn main() -> Result<(), Failure> {
    sodium::init();
    let van = Van::new(4)?;
    let (issuer, backers, toad) = (van.issuer, van.prefixes()?, ample(4)?);
    let mut ledger = Ledger::new();

    let vcp =
        named(|said| TelEvent::RegistryInception { said, issuer, toad, configs: vec![], backers: backers.clone() })?;
    van.send(&mut ledger, "vcp: a registry with 4 backers", &vcp, &van.receipts(&vcp, &[0, 1, 2, 3])?)??;

    let registry = vcp.said();
    let credential = Said::new(b'F', sodium::digest(b"sewer survey, manhole 17 to 18"))?;
    let key = Key { registry, credential };
    let anchor = Seal::Event { i: registry.into(), s: 0, d: registry };
    let bis = named(|said| TelEvent::BackedIssue { said, credential, registry, anchor })?;
    for (what, forged) in forgeries(&van, &bis, &vcp)? {
        let mut receipts = van.receipts(&bis, &[0, 1])?;
        receipts.push(forged);
        expect_27(van.send(&mut ledger, what, &bis, &receipts)?);
        assert_eq!(ledger.standing(&key)?, Standing::Unknown);
    }
    van.send(&mut ledger, "bis, when a third receipt has come", &bis, &van.receipts(&bis, &[0, 1, 3])?)??;
    assert_eq!(ledger.standing(&key)?, Standing::Issued);

    let brv = named(|said| TelEvent::BackedRevoke { said, credential, prior: bis.said(), anchor })?;
    van.send(&mut ledger, "brv: the credential is revoked", &brv, &van.receipts(&brv, &[1, 2, 3])?)??;
    let kept = Ledger::from_image(&ledger.to_image()?)?;
    assert_eq!(kept.standing(&key)?, Standing::Revoked);
    println!("as expected");
    Ok(())
}
