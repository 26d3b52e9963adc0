/*
 * Holds the header to the library: its sizes, its names, each call, what a refusal leaves, and that nothing outside what is lent is
 * written. It prints how many checks there were, and ends with another status than 0 where one failed.
 */
#include "jamfell.h"

#include <stdio.h>
#include <string.h>

static int checks = 0;
static int failures = 0;

#define CHECK(test) check((test), #test, __LINE__)

static void check(int passed, const char *what, int line) {
    checks++;
    if (!passed) {
        failures++;
        printf("test.c:%d: fails: %s\n", line, what);
    }
}

/* Bytes that are put together piece by piece. */
typedef struct pieces {
    uint8_t bytes[JAMFELL_ATTEMPT_BYTES_MAX];
    size_t size;
} pieces;

static void put(pieces *p, uint8_t byte) {
    p->bytes[p->size++] = byte;
}

/* A primitive: its letter, and 32 times one byte. */
static void put_primitive(pieces *p, char letter, uint8_t fill) {
    put(p, (uint8_t)letter);
    memset(p->bytes + p->size, fill, 32);
    p->size += 32;
}

/* A number of as many bytes. */
static void put_number(pieces *p, size_t size, uint8_t number) {
    memset(p->bytes + p->size, 0, size);
    p->size += size;
    p->bytes[p->size - 1] = number;
}

static const uint8_t ISSUER = 7, REGISTRY = 1, CREDENTIAL = 2, ISSUE = 3, REVOCATION = 4, KEY_EVENT = 5;

/* Sections 7 to 10: a source, the anchoring event with the one seal (i, s, d), no signatures, and the issuer as evidence. */
static void put_anchored(pieces *p, uint8_t i, uint8_t s, uint8_t d) {
    put(p, 1);
    put_number(p, 16, 9);
    put_primitive(p, 'E', KEY_EVENT);
    put(p, 1);
    put_primitive(p, 'D', ISSUER);
    put_number(p, 16, 9);
    put_primitive(p, 'E', KEY_EVENT);
    put(p, 1);
    put(p, 4);
    put_primitive(p, 'E', i);
    put_number(p, 16, s);
    put_primitive(p, 'E', d);
    put(p, 0);
    put(p, 1);
    put(p, 1);
    put_primitive(p, 'D', ISSUER);
    put(p, 0);
}

/* A vcp of a registry without backers. */
static pieces vcp(void) {
    pieces p = {{1, 2}, 2};
    put_primitive(&p, 'E', REGISTRY);
    put_primitive(&p, 'D', ISSUER);
    put(&p, 1);
    put_number(&p, 16, 0);
    put(&p, 1);
    put(&p, 3);
    put(&p, 0);
    put(&p, 0);
    put(&p, 0);
    put_anchored(&p, REGISTRY, 0, REGISTRY);
    return p;
}

/* An iss, of kind 3, or a rev, of kind 4, whose prior the iss is. */
static pieces iss_or_rev(uint8_t kind) {
    uint8_t said = kind == 3 ? ISSUE : REVOCATION;
    pieces p = {{0}, 0};
    put(&p, kind);
    put(&p, kind);
    put_primitive(&p, 'E', said);
    put_primitive(&p, 'E', CREDENTIAL);
    put_primitive(&p, 'E', REGISTRY);
    if (kind == 4) {
        put_primitive(&p, 'E', ISSUE);
    }
    put_number(&p, 5, 0);
    put_anchored(&p, CREDENTIAL, kind == 3 ? 0 : 1, said);
    return p;
}

static void test_sizes(void) {
    struct aligned {
        char first;
        jamfell_ledger ledger;
    };
    CHECK(sizeof(jamfell_ledger) == 47760);
    CHECK(offsetof(struct aligned, ledger) == 8);
    CHECK(offsetof(jamfell_ledger, registry_count) == 16 * 808);
    CHECK(offsetof(jamfell_ledger, credentials) == 16 * 808 + 8);
    CHECK(offsetof(jamfell_ledger, credential_count) == 47752);
    CHECK(sizeof(jamfell_report) == 36);
    CHECK(JAMFELL_CREDENTIAL_STATE_BYTES == 33 + 33 + 16 + 33);
    CHECK(JAMFELL_REGISTRY_STATE_BYTES_MAX == 33 + 33 + 16 + 33 + 4 + 1 + 8 + 1 + 16 * 33);
    CHECK(JAMFELL_IMAGE_BYTES_MAX == 2 + 16 * JAMFELL_REGISTRY_STATE_BYTES_MAX + 2 + 256 * JAMFELL_CREDENTIAL_STATE_BYTES);
    CHECK(JAMFELL_STATUS_INPUT_BYTES_MAX == 3 * 33 + 1 + 1 + JAMFELL_REGISTRY_STATE_BYTES_MAX + 1 + JAMFELL_CREDENTIAL_STATE_BYTES + 1 + 33);
}

/* Every number with its name. */
static const struct {
    uint8_t number;
    const char *name;
} names[] = {
    {JAMFELL_ACCEPTED, "Accepted"},
    {JAMFELL_MALFORMED, "Malformed"},
    {JAMFELL_MISSING_REGISTRY, "MissingRegistry"},
    {JAMFELL_DUPLICATE_INCEPTION, "DuplicateInception"},
    {JAMFELL_ALREADY_ISSUED, "AlreadyIssued"},
    {JAMFELL_MISSING_CREDENTIAL_STATE, "MissingCredentialState"},
    {JAMFELL_NOT_REGISTRY_INCEPTION, "NotRegistryInception"},
    {JAMFELL_NOT_MANAGEMENT_ROTATION, "NotManagementRotation"},
    {JAMFELL_NOT_CREDENTIAL_INCEPTION, "NotCredentialInception"},
    {JAMFELL_NOT_CREDENTIAL_TRANSITION, "NotCredentialTransition"},
    {JAMFELL_INCONSISTENT_REGISTRY, "InconsistentRegistry"},
    {JAMFELL_NO_BACKERS_WITH_BACKERS, "NoBackersWithBackers"},
    {JAMFELL_SIMPLE_EVENT_ON_BACKER_REGISTRY, "SimpleEventOnBackerRegistry"},
    {JAMFELL_BACKED_EVENT_ON_BACKERLESS_REGISTRY, "BackedEventOnBackerlessRegistry"},
    {JAMFELL_ROTATION_ON_BACKERLESS_REGISTRY, "RotationOnBackerlessRegistry"},
    {JAMFELL_SEQUENCE_NUMBER_OVERFLOW, "SequenceNumberOverflow"},
    {JAMFELL_OUT_OF_ORDER, "OutOfOrder"},
    {JAMFELL_PRIOR_DIGEST_MISMATCH, "PriorDigestMismatch"},
    {JAMFELL_MISSING_ISSUER, "MissingIssuer"},
    {JAMFELL_INCONSISTENT_ISSUER, "InconsistentIssuer"},
    {JAMFELL_MISSING_ANCHOR, "MissingAnchor"},
    {JAMFELL_INCONSISTENT_ANCHOR, "InconsistentAnchor"},
    {JAMFELL_INCONSISTENT_MANAGEMENT, "InconsistentManagement"},
    {JAMFELL_UNRESOLVED_ANCHOR, "UnresolvedAnchor"},
    {JAMFELL_BACKER_SET, "BackerSet"},
    {JAMFELL_TOO_MANY_BACKERS, "TooManyBackers"},
    {JAMFELL_BACKER_THRESHOLD, "BackerThreshold"},
    {JAMFELL_MISSING_BACKER_RECEIPTS, "MissingBackerReceipts"},
    {JAMFELL_INCONSISTENT_CREDENTIAL, "InconsistentCredential"},
    {JAMFELL_NO_ROOM, "NoRoom"},
    {JAMFELL_SHORT_BUFFER, "ShortBuffer"},
    {JAMFELL_STATUS_MISSING_REGISTRY, "MissingRegistry"},
    {JAMFELL_STATUS_MISSING_CREDENTIAL_STATE, "MissingCredentialState"},
    {JAMFELL_STATUS_MISSING_ISSUER_STATE, "MissingIssuerState"},
    {JAMFELL_STATUS_MISSING_REGISTRY_REFERENCE, "MissingRegistryReference"},
    {JAMFELL_STATUS_REGISTRY_MISMATCH, "RegistryMismatch"},
    {JAMFELL_STATUS_ISSUER_MISMATCH, "IssuerMismatch"},
    {JAMFELL_STATUS_ISSUER_STATE_MISMATCH, "IssuerStateMismatch"},
    {JAMFELL_STATUS_CREDENTIAL_STATE_MISMATCH, "CredentialStateMismatch"},
    {JAMFELL_STATUS_REVOKED, "Revoked"},
};

static void test_names(void) {
    size_t i;
    CHECK(sizeof names / sizeof names[0] == 40);
    for (i = 0; i < sizeof names / sizeof names[0]; i++) {
        CHECK(names[i].number == i && strcmp(jamfell_name(names[i].number), names[i].name) == 0);
    }
    CHECK(strcmp(jamfell_name(40), "?") == 0);
    CHECK(strcmp(jamfell_name(255), "?") == 0);
}

/* Values stand in 16 bytes each, the highest first. */
static void test_values(void) {
    jamfell_report report;
    size_t i;
    for (i = 0; i < sizeof report.bytes; i++) {
        report.bytes[i] = (uint8_t)i;
    }
    CHECK(jamfell_number(&report) == 0 && jamfell_letter(&report) == 1);
    CHECK(jamfell_awaited(&report) == 2 && jamfell_value_count(&report) == 3);
    CHECK(jamfell_value(&report, 0).high == 0x0405060708090a0bu && jamfell_value(&report, 0).low == 0x0c0d0e0f10111213u);
    CHECK(jamfell_value(&report, 1).high == 0x1415161718191a1bu && jamfell_value(&report, 1).low == 0x1c1d1e1f20212223u);
    CHECK(jamfell_value(&report, 2).high == 0 && jamfell_value(&report, 2).low == 0);
}

/* Whether a report is of this number, letter, kind of evidence and count of values, and the call returned the number. */
static int is(uint8_t returned, const jamfell_report *report, int number, char letter, int awaited, int values) {
    return returned == number && jamfell_number(report) == number && jamfell_letter(report) == letter &&
           jamfell_awaited(report) == awaited && jamfell_value_count(report) == values;
}

static uint64_t first(const jamfell_report *report) {
    return jamfell_value(report, 0).high == 0 ? jamfell_value(report, 0).low : UINT64_MAX;
}

static uint64_t second(const jamfell_report *report) {
    return jamfell_value(report, 1).high == 0 ? jamfell_value(report, 1).low : UINT64_MAX;
}

/* The standing of a credential under the registry, or 0 after a refusal. */
static uint64_t standing(const jamfell_ledger *ledger, uint8_t credential) {
    jamfell_report report;
    pieces registry = {{0}, 0}, key = {{0}, 0};
    put_primitive(&registry, 'E', REGISTRY);
    put_primitive(&key, 'E', credential);
    if (jamfell_look_up(ledger, registry.bytes, registry.size, key.bytes, key.size, &report) != 0) {
        return 0;
    }
    CHECK(is(0, &report, 0, 'A', 0, 1));
    return first(&report);
}

/* A block and a report between bytes that no call may write. */
typedef struct lent {
    uint64_t before[64];
    jamfell_ledger ledger;
    uint64_t between[64];
    jamfell_report report;
    uint8_t after[512];
} lent;

static int untouched(const lent *l) {
    lent clean;
    memset(&clean, 0xa5, sizeof clean);
    return memcmp(l->before, clean.before, sizeof clean.before) == 0 && memcmp(l->between, clean.between, sizeof clean.between) == 0 &&
           memcmp(l->after, clean.after, sizeof clean.after) == 0;
}

/* Applies, and after a refusal holds all the bytes of the block to those before. */
static uint8_t apply(lent *l, const pieces *p) {
    static jamfell_ledger before;
    uint8_t number;
    before = l->ledger;
    number = jamfell_apply(&l->ledger, p->bytes, p->size, &l->report);
    CHECK(number == 0 || memcmp(&before, &l->ledger, sizeof before) == 0);
    CHECK(untouched(l));
    return number;
}

/* A registry, a credential issued and revoked, and what is refused on the way. */
static void test_ledger(lent *l) {
    pieces v = vcp(), i = iss_or_rev(3), r = iss_or_rev(4), none = {{0}, 0};
    CHECK(is(apply(l, &none), &l->report, JAMFELL_MALFORMED, JAMFELL_TERMINAL, 0, 0));
    CHECK(is(apply(l, &i), &l->report, JAMFELL_MISSING_REGISTRY, JAMFELL_AWAITING, JAMFELL_AWAITS_REGISTRY_STATE, 0));
    CHECK(is(apply(l, &v), &l->report, JAMFELL_ACCEPTED, JAMFELL_ACCEPT, 0, 0));
    CHECK(is(apply(l, &v), &l->report, JAMFELL_DUPLICATE_INCEPTION, JAMFELL_CONTESTED, 0, 0));
    CHECK(is(apply(l, &r), &l->report, JAMFELL_MISSING_CREDENTIAL_STATE, 'W', JAMFELL_AWAITS_CREDENTIAL_TEL_STATE, 0));
    CHECK(standing(&l->ledger, CREDENTIAL) == JAMFELL_UNKNOWN);
    CHECK(is(apply(l, &i), &l->report, 0, 'A', 0, 0));
    CHECK(is(apply(l, &i), &l->report, JAMFELL_ALREADY_ISSUED, 'C', 0, 0));
    CHECK(standing(&l->ledger, CREDENTIAL) == JAMFELL_ISSUED);
    CHECK(is(apply(l, &r), &l->report, 0, 'A', 0, 0));
    CHECK(standing(&l->ledger, CREDENTIAL) == JAMFELL_REVOKED);
    CHECK(standing(&l->ledger, ISSUE) == JAMFELL_UNKNOWN);
    CHECK(is(apply(l, &r), &l->report, JAMFELL_OUT_OF_ORDER, 'C', 0, 2));
    CHECK(first(&l->report) == 2 && second(&l->report) == 1);
    CHECK(l->ledger.registry_count == 1 && l->ledger.credential_count == 1);
}

/* Keys of 33 bytes that are saids, and no others. */
static void test_keys(const lent *l) {
    jamfell_report report;
    pieces said = {{0}, 0}, prefix = {{0}, 0};
    size_t n;
    put_primitive(&said, 'E', REGISTRY);
    put_primitive(&prefix, 'B', REGISTRY);
    for (n = 0; n <= 40; n++) {
        int refused = n != JAMFELL_PRIMITIVE_BYTES;
        CHECK(jamfell_look_up(&l->ledger, said.bytes, n, said.bytes, said.size, &report) == refused);
        CHECK(jamfell_look_up(&l->ledger, said.bytes, said.size, said.bytes, n, &report) == refused);
    }
    CHECK(is(jamfell_look_up(&l->ledger, prefix.bytes, 33, said.bytes, 33, &report), &report, 1, 'T', 0, 0));
    CHECK(is(jamfell_look_up(&l->ledger, said.bytes, 33, prefix.bytes, 33, &report), &report, 1, 'T', 0, 0));
}

/* Whether the bytes from a place on are all of one value. */
static int all(const uint8_t *bytes, size_t from, size_t to, uint8_t value) {
    for (; from < to; from++) {
        if (bytes[from] != value) {
            return 0;
        }
    }
    return 1;
}

/* Written to a buffer that is too short by a byte, and to one that is longer. */
static void test_write_image(lent *l, uint8_t *out, size_t size, size_t image) {
    memset(out, 0x5a, size);
    CHECK(is(jamfell_write_image(&l->ledger, out, image - 1, &l->report), &l->report, JAMFELL_SHORT_BUFFER, 'T', 0, 0));
    CHECK(all(out, 0, size, 0x5a));
    CHECK(is(jamfell_write_image(&l->ledger, out, size, &l->report), &l->report, 0, 'A', 0, 1));
    CHECK(first(&l->report) == image && all(out, image, size, 0x5a));
    CHECK(untouched(l));
}

/* The image of one registry without backers and one credential, read into a block of any bytes. */
static void test_image(lent *l) {
    static uint8_t out[JAMFELL_IMAGE_BYTES_MAX + 64], again[JAMFELL_IMAGE_BYTES_MAX];
    static jamfell_ledger other, before;
    const size_t image = 2 + 122 + 2 + 115;
    test_write_image(l, out, sizeof out, image);
    memset(&other, 0xff, sizeof other);
    before = other;
    CHECK(is(jamfell_read_image(&other, out, image + 1, &l->report), &l->report, JAMFELL_MALFORMED, 'T', 0, 0));
    CHECK(jamfell_read_image(&other, out, image - 1, &l->report) == 1);
    CHECK(memcmp(&other, &before, sizeof other) == 0);
    CHECK(is(jamfell_read_image(&other, out, image, &l->report), &l->report, 0, 'A', 0, 0));
    CHECK(other.registry_count == 1 && other.credential_count == 1);
    CHECK(standing(&other, CREDENTIAL) == JAMFELL_REVOKED);
    CHECK(jamfell_write_image(&other, again, sizeof again, &l->report) == 0 && memcmp(out, again, image) == 0);
    jamfell_empty(&other);
    CHECK(other.registry_count == 0 && other.credential_count == 0);
    CHECK(standing(&other, CREDENTIAL) == JAMFELL_UNKNOWN);
}

/* A block whose bytes are all of one value is refused by each call, but for 0, and no byte of it changes. */
static void test_any_bits(lent *l) {
    static jamfell_ledger before;
    uint8_t out[4] = {0};
    pieces v = vcp();
    int value;
    for (value = 1; value < 256; value++) {
        memset(&l->ledger, value, sizeof l->ledger);
        before = l->ledger;
        CHECK(is(apply(l, &v), &l->report, 1, 'T', 0, 0));
        CHECK(standing(&l->ledger, CREDENTIAL) == 0);
        CHECK(is(jamfell_write_image(&l->ledger, out, sizeof out, &l->report), &l->report, 1, 'T', 0, 0));
        CHECK(all(out, 0, sizeof out, 0));
        CHECK(memcmp(&before, &l->ledger, sizeof before) == 0);
        CHECK(untouched(l));
    }
    memset(&l->ledger, 0, sizeof l->ledger);
    CHECK(standing(&l->ledger, CREDENTIAL) == JAMFELL_UNKNOWN);
}

/* The folds from a vcp to a revocation, each over the bytes that the last one left. */
static void test_folds(void) {
    uint8_t registry[JAMFELL_REGISTRY_STATE_BYTES_MAX], issued[128], revoked[JAMFELL_CREDENTIAL_STATE_BYTES];
    jamfell_report report;
    pieces v = vcp(), i = iss_or_rev(3), r = iss_or_rev(4);
    memset(registry, 0x5a, sizeof registry);
    memset(issued, 0x5a, sizeof issued);
    CHECK(is(jamfell_registry_incept(v.bytes, v.size, registry, 121, &report), &report, JAMFELL_SHORT_BUFFER, 'T', 0, 0));
    CHECK(all(registry, 0, sizeof registry, 0x5a));
    CHECK(is(jamfell_registry_incept(v.bytes, v.size, registry, sizeof registry, &report), &report, 0, 'A', 0, 1));
    CHECK(first(&report) == 122 && all(registry, 122, sizeof registry, 0x5a));
    CHECK(jamfell_registry_ingest(registry, 122, v.bytes, v.size, issued, sizeof issued, &report) == JAMFELL_DUPLICATE_INCEPTION);
    CHECK(jamfell_registry_ingest(registry, 123, v.bytes, v.size, issued, sizeof issued, &report) == JAMFELL_MALFORMED);
    CHECK(all(issued, 0, sizeof issued, 0x5a));
    CHECK(is(jamfell_credential_incept(registry, 122, i.bytes, i.size, issued, sizeof issued, &report), &report, 0, 'A', 0, 1));
    CHECK(first(&report) == 115 && all(issued, 115, sizeof issued, 0x5a));
    CHECK(jamfell_credential_ingest(registry, 122, issued, 115, i.bytes, i.size, revoked, 115, &report) == JAMFELL_NOT_CREDENTIAL_TRANSITION);
    CHECK(is(jamfell_credential_ingest(registry, 122, issued, 115, r.bytes, r.size, revoked, 115, &report), &report, 0, 'A', 0, 1));
    CHECK(jamfell_credential_ingest(registry, 122, revoked, 115, r.bytes, r.size, issued, 115, &report) == JAMFELL_OUT_OF_ORDER);
    CHECK(first(&report) == 2 && second(&report) == 1);
}

/* Bytes that are an attempt, and the same without their last one and with one more. */
static void test_decode(void) {
    jamfell_report report;
    pieces each[3];
    int k;
    each[0] = vcp();
    each[1] = iss_or_rev(3);
    each[2] = iss_or_rev(4);
    for (k = 0; k < 3; k++) {
        CHECK(is(jamfell_decode(each[k].bytes, each[k].size, &report), &report, 0, 'A', 0, 1));
        CHECK(first(&report) == each[k].bytes[0]);
        CHECK(is(jamfell_decode(each[k].bytes, each[k].size - 1, &report), &report, JAMFELL_MALFORMED, 'T', 0, 0));
        CHECK(is(jamfell_decode(each[k].bytes, each[k].size + 1, &report), &report, JAMFELL_MALFORMED, 'T', 0, 0));
    }
    CHECK(jamfell_decode(each[0].bytes, 0, &report) == JAMFELL_MALFORMED);
}

/* A credential whose registry there is no state of. */
static void test_status(void) {
    jamfell_report report;
    pieces p = {{0}, 0};
    put_primitive(&p, 'E', CREDENTIAL);
    put_primitive(&p, 'D', ISSUER);
    put_number(&p, 4, 0);
    CHECK(is(jamfell_status(p.bytes, p.size, &report), &report, JAMFELL_STATUS_MISSING_REGISTRY, 'W', JAMFELL_AWAITS_REGISTRY_STATE, 0));
    CHECK(is(jamfell_status(p.bytes, p.size - 1, &report), &report, JAMFELL_MALFORMED, 'T', 0, 0));
}

static void test_thresholds(void) {
    static const uint64_t ample[][2] = {{0, 0}, {1, 1}, {2, 2}, {3, 3}, {4, 3}, {6, 4}, {7, 5}, {16, 11}};
    jamfell_report report;
    size_t i;
    for (i = 0; i < sizeof ample / sizeof ample[0]; i++) {
        CHECK(is(jamfell_ample(ample[i][0], &report), &report, 0, 'A', 0, 1));
        CHECK(first(&report) == ample[i][1]);
    }
    CHECK(is(jamfell_ample(SIZE_MAX, &report), &report, JAMFELL_BACKER_THRESHOLD, 'T', 0, 0));
    CHECK(is(jamfell_exact(0, 0, &report), &report, 0, 'A', 0, 0));
    CHECK(is(jamfell_exact(1, 0, &report), &report, JAMFELL_BACKER_THRESHOLD, 'T', 0, 0));
    CHECK(jamfell_exact(0, 1, &report) == 26 && jamfell_exact(16, 16, &report) == 0 && jamfell_exact(17, 16, &report) == 26);
    CHECK(jamfell_exact(UINT32_MAX, SIZE_MAX, &report) == 0);
}

int main(void) {
    static lent l;
    memset(&l, 0xa5, sizeof l);
    jamfell_empty(&l.ledger);
    test_sizes();
    test_names();
    test_values();
    test_ledger(&l);
    test_keys(&l);
    test_image(&l);
    test_any_bits(&l);
    test_folds();
    test_decode();
    test_status();
    test_thresholds();
    printf("%d checks, %d failed\n", checks, failures);
    return failures == 0 ? 0 : 1;
}
