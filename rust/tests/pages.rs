//! The crate, the C header and docs/RULES.md say the same: names, numbers, letters, what is awaited, and sizes.
use jamfell::attempt::ATTEMPT_BYTES_MAX;
use jamfell::state::{CREDENTIAL_STATE_BYTES, REGISTRY_STATE_BYTES_MAX};
use jamfell::status::STATUS_INPUT_BYTES_MAX;
use jamfell::sys::{LEDGER_BYTES, REPORT_BYTES};
use jamfell::{CredentialError, EvidenceKind, Refusal, Rule, IMAGE_BYTES_MAX, PRIMITIVE_BYTES};
use std::collections::BTreeMap;
use std::fs;
use std::path::Path;

fn page(name: &str) -> String {
    fs::read_to_string(Path::new(env!("CARGO_MANIFEST_DIR")).join("..").join(name)).unwrap()
}

/// Every refusal that there is.
fn refusals() -> Vec<Refusal> {
    use Refusal::*;
    let mut all = vec![Malformed, MissingRegistry, DuplicateInception, AlreadyIssued, MissingCredentialState];
    all.extend([NotRegistryInception, NotManagementRotation, NotCredentialInception, NotCredentialTransition]);
    all.extend([InconsistentRegistry, NoBackersWithBackers, SimpleEventOnBackerRegistry]);
    all.extend([BackedEventOnBackerlessRegistry, RotationOnBackerlessRegistry, SequenceNumberOverflow]);
    all.extend([OutOfOrder { expected: 1, actual: 2 }, PriorDigestMismatch, MissingIssuer, InconsistentIssuer]);
    all.extend([MissingAnchor, InconsistentAnchor, InconsistentManagement, UnresolvedAnchor { sn: 1 }]);
    all.extend([BackerSet { rule: Rule::DuplicateCut, at: 1 }, TooManyBackers, BackerThreshold]);
    all.extend([MissingBackerReceipts { valid: 1, required: 2 }, InconsistentCredential, NoRoom, ShortBuffer]);
    all.extend(errors().map(Credential));
    all
}

fn errors() -> [CredentialError; 9] {
    use CredentialError::*;
    [
        MissingRegistry,
        MissingCredentialState,
        MissingIssuerState,
        MissingRegistryReference,
        RegistryMismatch,
        IssuerMismatch,
        IssuerStateMismatch,
        CredentialStateMismatch,
        Revoked,
    ]
}

/// The name that a value is written with, without what it holds.
fn written(value: impl std::fmt::Debug) -> String {
    format!("{value:?}").split([' ', '(']).next().unwrap().to_owned()
}

/// The rows of the page's two tables of refusals: number, and the cells behind it.
fn rows(page: &str) -> BTreeMap<u8, Vec<String>> {
    let (_, behind) = page.split_once("## Refusals").unwrap();
    let (section, _) = behind.split_once("## Orders").unwrap();
    let row = |line: &str| {
        let cells: Vec<_> = line.split('|').map(|cell| cell.trim().to_owned()).collect();
        Some((cells.get(1)?.parse().ok()?, cells[2..].to_vec()))
    };
    section.lines().filter_map(row).collect()
}

#[test]
fn names_and_numbers_of_the_page() {
    let rows = rows(&page("docs/RULES.md"));
    assert!(rows.keys().copied().eq(0..=39));
    for (refusal, number) in refusals().into_iter().zip(1..) {
        assert_eq!(refusal.number(), number);
        assert_eq!(refusal.name(), rows[&number][0].trim_end_matches(" (added)"));
    }
    for refusal in &refusals()[..30] {
        assert_eq!(refusal.name(), written(refusal));
    }
    for (error, number) in errors().into_iter().zip(31..) {
        assert_eq!(written(error), rows[&number][0]);
    }
}

/// The evidence kinds of the page, as `11 RegistryState`.
#[test]
fn evidence_kinds_of_the_page() {
    let rows = rows(&page("docs/RULES.md"));
    use EvidenceKind::*;
    let (valid, required) = (1, 2);
    let awaited = [
        (2, RegistryState),
        (5, CredentialTelState),
        (16, PriorEvents { expected_sn: 1 }),
        (18, IssuerState),
        (20, KelAnchor),
        (23, TelAnchor { sn: 1 }),
        (27, BackerReceipts { valid, required }),
    ];
    for (number, kind) in awaited {
        let cell = rows[&number][2].trim_end_matches(" if W");
        assert_eq!(cell, format!("{} {}", kind.number(), written(kind)));
    }
}

#[test]
fn rules_on_backers() {
    let page = page("docs/RULES.md");
    let rules = [
        (Rule::DuplicateBacker, "duplicate backer"),
        (Rule::DuplicateCut, "duplicate cut"),
        (Rule::DuplicateAddition, "duplicate addition"),
        (Rule::CutAddOverlap, "cut also added"),
        (Rule::RemovalNotCurrent, "cut not current"),
        (Rule::AdditionAlreadyPresent, "addition present"),
    ];
    for (rule, words) in rules {
        assert!(page.contains(&format!("\n| {} | {words} |", rule.number())));
        assert_eq!(header()[&format!("JAMFELL_{}", capitals(&written(rule)))], usize::from(rule.number()));
    }
}

/// `MissingRegistry` as `MISSING_REGISTRY`.
fn capitals(name: &str) -> String {
    let letter = |letter: char| match letter.is_uppercase() {
        true => format!("_{letter}"),
        false => letter.to_uppercase().to_string(),
    };
    name.chars().map(letter).collect::<String>().trim_start_matches('_').to_owned()
}

/// The numbers that the C header gives its names.
fn header() -> BTreeMap<String, usize> {
    let define = |line: &str| line.strip_prefix("#define ").map(|words| words.replacen(' ', " = ", 1));
    let named = |line: &str| {
        let line = define(line).unwrap_or(line.to_owned());
        let (name, number) = line.trim().split_once(" = ")?;
        let end = number.find(|letter: char| !letter.is_ascii_digit()).unwrap_or(number.len());
        Some((name.to_owned(), number[..end].parse().ok()?))
    };
    page("c/jamfell.h").lines().filter_map(named).collect()
}

#[test]
fn numbers_of_the_header() {
    let header = header();
    assert_eq!(header["JAMFELL_ACCEPTED"], 0);
    for refusal in refusals() {
        let prefix = if refusal.number() > 30 { "JAMFELL_STATUS" } else { "JAMFELL" };
        let name = format!("{prefix}_{}", capitals(refusal.name()));
        assert_eq!(header.get(&name), Some(&usize::from(refusal.number())), "{name}");
    }
    use EvidenceKind::*;
    let kinds = [CredentialTelState, RegistryState, IssuerState, KelAnchor];
    let (valid, required) = (1, 2);
    let others = [PriorEvents { expected_sn: 1 }, BackerReceipts { valid, required }, TelAnchor { sn: 1 }];
    for kind in kinds.into_iter().chain(others) {
        let name = format!("JAMFELL_AWAITS_{}", capitals(&written(kind)));
        assert_eq!(header.get(&name), Some(&usize::from(kind.number())), "{name}");
    }
}

#[test]
fn sizes_of_the_header() {
    for (name, size) in [
        ("LEDGER_BYTES", LEDGER_BYTES),
        ("REPORT_BYTES", REPORT_BYTES),
        ("PRIMITIVE_BYTES", PRIMITIVE_BYTES),
        ("CREDENTIAL_STATE_BYTES", CREDENTIAL_STATE_BYTES),
        ("REGISTRY_STATE_BYTES_MAX", REGISTRY_STATE_BYTES_MAX),
        ("IMAGE_BYTES_MAX", IMAGE_BYTES_MAX),
        ("ATTEMPT_BYTES_MAX", ATTEMPT_BYTES_MAX),
        ("STATUS_INPUT_BYTES_MAX", STATUS_INPUT_BYTES_MAX),
    ] {
        assert_eq!(header()[&format!("JAMFELL_{name}")], size, "{name}");
    }
}
