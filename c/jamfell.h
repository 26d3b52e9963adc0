/*
 * Jamfell for hosts in C: a ledger of credentials in a block of memory that the host lends.
 *
 * The rules are in docs/RULES.md; names in quotation marks are headings there. The library is libhost.a, for x86-64 Linux, made by
 * tools/library.sh.
 *
 * What holds of every call:
 * - It always answers, whatever the bytes are that it is handed, those of a ledger included. It allocates nothing, keeps no pointer
 *   and has no memory of its own.
 * - It writes the whole report, and returns the number that also stands at the report's start (jamfell_empty has no report).
 * - A number other than 0 is a refusal. It leaves every byte of a ledger and of a buffer as it was; only the report is written.
 * - What a call writes (a ledger that is no `const`, `out`, `next`, the report) overlaps nothing else that the call is handed. What
 *   it only reads may overlap.
 * - No pointer is NULL. With a length of 0 it may point anywhere, since nothing is read there.
 * - Two threads may call at the same time, unless one call writes what the other is handed.
 */
#ifndef JAMFELL_H
#define JAMFELL_H

#include <stddef.h>
#include <stdint.h>

#ifdef __cplusplus
extern "C" {
#endif

/* Sizes, in bytes. */
#define JAMFELL_LEDGER_BYTES 47760
#define JAMFELL_REPORT_BYTES 36
#define JAMFELL_PRIMITIVE_BYTES 33
/* A credential state has just this size, the others are the largest that there can be. */
#define JAMFELL_CREDENTIAL_STATE_BYTES 115
#define JAMFELL_REGISTRY_STATE_BYTES_MAX 657
#define JAMFELL_IMAGE_BYTES_MAX 39956
#define JAMFELL_ATTEMPT_BYTES_MAX 3096
#define JAMFELL_STATUS_INPUT_BYTES_MAX 908

/* How many a ledger holds at most. */
#define JAMFELL_REGISTRIES_MAX 16
#define JAMFELL_CREDENTIALS_MAX 256

/*
 * A ledger. Every pattern of bits in it is one that gets an answer, and one whose bytes are all 0 is empty. A host reads the two
 * counts and leaves the rest to the calls: the states are laid out as the library likes. Four bytes of each registry mean nothing,
 * and an accepted attempt leaves anything there, remains of the stack too. So a ledger is kept, sent and compared as its image,
 * never as its block.
 */
typedef struct jamfell_ledger {
    uint64_t registries[JAMFELL_REGISTRIES_MAX][101];
    uint64_t registry_count;
    uint64_t credentials[JAMFELL_CREDENTIALS_MAX][17];
    uint64_t credential_count;
} jamfell_ledger;

/* What a call answers. The functions at the end of this file read it. */
typedef struct jamfell_report {
    uint8_t bytes[JAMFELL_REPORT_BYTES];
} jamfell_report;

/* A compiler that lays the block out in another way refuses this. */
typedef char jamfell_ledger_has_its_size[sizeof(jamfell_ledger) == JAMFELL_LEDGER_BYTES ? 1 : -1];
typedef char jamfell_report_has_its_size[sizeof(jamfell_report) == JAMFELL_REPORT_BYTES ? 1 : -1];

/* Numbers ("Refusals"), with the details that the report has as values. */
enum jamfell_number {
    JAMFELL_ACCEPTED = 0,
    JAMFELL_MALFORMED = 1,
    JAMFELL_MISSING_REGISTRY = 2,
    JAMFELL_DUPLICATE_INCEPTION = 3,
    JAMFELL_ALREADY_ISSUED = 4,
    JAMFELL_MISSING_CREDENTIAL_STATE = 5,
    JAMFELL_NOT_REGISTRY_INCEPTION = 6,
    JAMFELL_NOT_MANAGEMENT_ROTATION = 7,
    JAMFELL_NOT_CREDENTIAL_INCEPTION = 8,
    JAMFELL_NOT_CREDENTIAL_TRANSITION = 9,
    JAMFELL_INCONSISTENT_REGISTRY = 10,
    JAMFELL_NO_BACKERS_WITH_BACKERS = 11,
    JAMFELL_SIMPLE_EVENT_ON_BACKER_REGISTRY = 12,
    JAMFELL_BACKED_EVENT_ON_BACKERLESS_REGISTRY = 13,
    JAMFELL_ROTATION_ON_BACKERLESS_REGISTRY = 14,
    JAMFELL_SEQUENCE_NUMBER_OVERFLOW = 15,
    JAMFELL_OUT_OF_ORDER = 16, /* expected, actual */
    JAMFELL_PRIOR_DIGEST_MISMATCH = 17,
    JAMFELL_MISSING_ISSUER = 18,
    JAMFELL_INCONSISTENT_ISSUER = 19,
    JAMFELL_MISSING_ANCHOR = 20,
    JAMFELL_INCONSISTENT_ANCHOR = 21,
    JAMFELL_INCONSISTENT_MANAGEMENT = 22,
    JAMFELL_UNRESOLVED_ANCHOR = 23, /* the sn that the event's own seal names */
    JAMFELL_BACKER_SET = 24,        /* a jamfell_rule, a position from 0 */
    JAMFELL_TOO_MANY_BACKERS = 25,
    JAMFELL_BACKER_THRESHOLD = 26,
    JAMFELL_MISSING_BACKER_RECEIPTS = 27, /* valid, required */
    JAMFELL_INCONSISTENT_CREDENTIAL = 28,
    JAMFELL_NO_ROOM = 29,
    JAMFELL_SHORT_BUFFER = 30,
    /* Of jamfell_status alone. */
    JAMFELL_STATUS_MISSING_REGISTRY = 31,
    JAMFELL_STATUS_MISSING_CREDENTIAL_STATE = 32,
    JAMFELL_STATUS_MISSING_ISSUER_STATE = 33,
    JAMFELL_STATUS_MISSING_REGISTRY_REFERENCE = 34,
    JAMFELL_STATUS_REGISTRY_MISMATCH = 35,
    JAMFELL_STATUS_ISSUER_MISMATCH = 36,
    JAMFELL_STATUS_ISSUER_STATE_MISMATCH = 37,
    JAMFELL_STATUS_CREDENTIAL_STATE_MISMATCH = 38,
    JAMFELL_STATUS_REVOKED = 39
};

/* What to do with an attempt, as a letter. */
enum jamfell_disposition {
    JAMFELL_ACCEPT = 'A',
    JAMFELL_TERMINAL = 'T',  /* never acceptable: drop it, or report it */
    JAMFELL_CONTESTED = 'C', /* the place that it claims is taken: compare it with what is recorded */
    JAMFELL_AWAITING = 'W'   /* keep it, and try again when the evidence that is awaited has come */
};

/* The evidence that is awaited, by its place in the source's list. */
enum jamfell_evidence_kind {
    JAMFELL_AWAITS_NOTHING = 0,
    JAMFELL_AWAITS_CREDENTIAL_TEL_STATE = 2,
    JAMFELL_AWAITS_REGISTRY_STATE = 11,
    JAMFELL_AWAITS_ISSUER_STATE = 12,
    JAMFELL_AWAITS_KEL_ANCHOR = 13,
    JAMFELL_AWAITS_PRIOR_EVENTS = 14,
    JAMFELL_AWAITS_BACKER_RECEIPTS = 17,
    JAMFELL_AWAITS_TEL_ANCHOR = 20
};

/* The rule on lists of backers that JAMFELL_BACKER_SET names. */
enum jamfell_rule {
    JAMFELL_DUPLICATE_BACKER = 1,
    JAMFELL_DUPLICATE_CUT = 2,
    JAMFELL_DUPLICATE_ADDITION = 3,
    JAMFELL_CUT_ADD_OVERLAP = 4,
    JAMFELL_REMOVAL_NOT_CURRENT = 5,
    JAMFELL_ADDITION_ALREADY_PRESENT = 6
};

/* What jamfell_look_up answers as its first value, where it accepts. A refusal has no standing. */
enum jamfell_standing {
    JAMFELL_ISSUED = 1,
    JAMFELL_REVOKED = 2,
    JAMFELL_UNKNOWN = 3
};

/*
 * The calls of the ledger. One that breaks a reading rule is refused with 1, wherever the fault stands.
 */

/* Makes the ledger empty: sets both counts to 0. */
void jamfell_empty(jamfell_ledger *ledger);

/* Takes an attempt in ("Ledger"). An accepted one changes the one registry or credential that it names, or adds it. */
uint8_t jamfell_apply(jamfell_ledger *ledger, const uint8_t *attempt, size_t attempt_size, jamfell_report *report);

/* Looks a credential up. Both keys are saids of 33 bytes; another length is refused with 1. First value: the standing. */
uint8_t jamfell_look_up(const jamfell_ledger *ledger, const uint8_t *registry, size_t registry_size, const uint8_t *credential,
                        size_t credential_size, jamfell_report *report);

/* Writes the image from the start of `out`; the bytes behind it keep their values. First value: how many bytes it has. */
uint8_t jamfell_write_image(const jamfell_ledger *ledger, uint8_t *out, size_t out_size, jamfell_report *report);

/* Puts the ledger of an image in the place of this one, whatever stands there. A refusal keeps this one. */
uint8_t jamfell_read_image(jamfell_ledger *ledger, const uint8_t *image, size_t image_size, jamfell_report *report);

/*
 * The folds, over the bytes of states ("Bytes"), for a host that keeps the states itself. A state whose bytes break the layout, or
 * go on behind it, is refused with 1. An accepted attempt's next state goes to the start of `next`, whose bytes behind it keep their
 * values; where it is too short for the state, the answer is 30. First value: how many bytes the state has.
 */

/* A vcp: makes a registry state. */
uint8_t jamfell_registry_incept(const uint8_t *attempt, size_t attempt_size, uint8_t *next, size_t next_size, jamfell_report *report);

/* A vrt: the registry state behind this one. */
uint8_t jamfell_registry_ingest(const uint8_t *state, size_t state_size, const uint8_t *attempt, size_t attempt_size, uint8_t *next,
                                size_t next_size, jamfell_report *report);

/* An iss or bis: makes a credential state. */
uint8_t jamfell_credential_incept(const uint8_t *registry, size_t registry_size, const uint8_t *attempt, size_t attempt_size,
                                  uint8_t *next, size_t next_size, jamfell_report *report);

/* A rev or brv: the credential state behind this one. */
uint8_t jamfell_credential_ingest(const uint8_t *registry, size_t registry_size, const uint8_t *credential, size_t credential_size,
                                  const uint8_t *attempt, size_t attempt_size, uint8_t *next, size_t next_size,
                                  jamfell_report *report);

/*
 * Whether bytes are an attempt ("Bytes"), and no other rule: 0 with the number of its kind as the first value (1 vcp, 2 vrt, 3 iss,
 * 4 rev, 5 bis, 6 brv), or 1.
 */
uint8_t jamfell_decode(const uint8_t *attempt, size_t attempt_size, jamfell_report *report);

/* Whether a credential is its issuer's and stands unrevoked under its registry ("Status"): 0, 1 or 31 to 39. */
uint8_t jamfell_status(const uint8_t *input, size_t input_size, jamfell_report *report);

/* Whether a toad fits a number of backers ("Thresholds"): 0 or 26. */
uint8_t jamfell_exact(uint32_t toad, size_t backers, jamfell_report *report);

/* The toad that suffices for a number of backers: 0 with the toad as the first value, or 26. */
uint8_t jamfell_ample(size_t backers, jamfell_report *report);

/*
 * Reading a report.
 */

/* A number of 128 bits, as an sn is. All other values fit the lower half. */
typedef struct jamfell_u128 {
    uint64_t high;
    uint64_t low;
} jamfell_u128;

/* A jamfell_number. */
static inline uint8_t jamfell_number(const jamfell_report *report) {
    return report->bytes[0];
}

/* A jamfell_disposition. */
static inline char jamfell_letter(const jamfell_report *report) {
    return (char)report->bytes[1];
}

/* A jamfell_evidence_kind. */
static inline uint8_t jamfell_awaited(const jamfell_report *report) {
    return report->bytes[2];
}

/* How many values there are: 0, 1 or 2. */
static inline uint8_t jamfell_value_count(const jamfell_report *report) {
    return report->bytes[3];
}

/* The big-endian number of 8 bytes at a place. */
static inline uint64_t jamfell_word(const uint8_t *at) {
    uint64_t word = 0;
    size_t i;
    for (i = 0; i < 8; i++) {
        word = word << 8 | at[i];
    }
    return word;
}

/* The value at a position, 0 or 1. It is 0 where the report has none there, or the position is another. */
static inline jamfell_u128 jamfell_value(const jamfell_report *report, size_t position) {
    jamfell_u128 value = {0, 0};
    if (position < 2) {
        value.high = jamfell_word(report->bytes + 4 + 16 * position);
        value.low = jamfell_word(report->bytes + 12 + 16 * position);
    }
    return value;
}

/* The name of a number in the source, or "?" where no call answers it. */
static inline const char *jamfell_name(uint8_t number) {
    static const char *const names[] = {
        "Accepted", "Malformed", "MissingRegistry", "DuplicateInception", "AlreadyIssued", "MissingCredentialState",
        "NotRegistryInception", "NotManagementRotation", "NotCredentialInception", "NotCredentialTransition", "InconsistentRegistry",
        "NoBackersWithBackers", "SimpleEventOnBackerRegistry", "BackedEventOnBackerlessRegistry", "RotationOnBackerlessRegistry",
        "SequenceNumberOverflow", "OutOfOrder", "PriorDigestMismatch", "MissingIssuer", "InconsistentIssuer", "MissingAnchor",
        "InconsistentAnchor", "InconsistentManagement", "UnresolvedAnchor", "BackerSet", "TooManyBackers", "BackerThreshold",
        "MissingBackerReceipts", "InconsistentCredential", "NoRoom", "ShortBuffer", "MissingRegistry", "MissingCredentialState",
        "MissingIssuerState", "MissingRegistryReference", "RegistryMismatch", "IssuerMismatch", "IssuerStateMismatch",
        "CredentialStateMismatch", "Revoked"};
    return number < sizeof names / sizeof names[0] ? names[number] : "?";
}

#ifdef __cplusplus
}
#endif

#endif
