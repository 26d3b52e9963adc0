/*
 * A small host: makes an empty ledger, takes in the attempts of the files that it is given, one attempt to a file, and says what the
 * ledger answers to each.
 *
 *     example FILE...
 */
#include "jamfell.h"

#include <inttypes.h>
#include <stdio.h>

/* Prints a value. One of more than 64 bits is an sn that no log reaches, so hexadecimal will do for it. */
static void print_value(jamfell_u128 value) {
    if (value.high == 0) {
        printf(" %" PRIu64, value.low);
    } else {
        printf(" 0x%" PRIx64 "%016" PRIx64, value.high, value.low);
    }
}

/* A line, as `27 W MissingBackerReceipts, values 2 3, awaits 17`. */
static void print_report(const jamfell_report *report) {
    size_t i;
    printf("%d %c %s", jamfell_number(report), jamfell_letter(report), jamfell_name(jamfell_number(report)));
    if (jamfell_value_count(report) > 0) {
        printf(", values");
    }
    for (i = 0; i < jamfell_value_count(report); i++) {
        print_value(jamfell_value(report, i));
    }
    if (jamfell_letter(report) == JAMFELL_AWAITING) {
        printf(", awaits %d", jamfell_awaited(report));
    }
    printf("\n");
}

/* Reads a file, and answers how many bytes it has, or -1 where it can't be read. */
static long read_file(const char *name, uint8_t *buffer, size_t size) {
    FILE *file = fopen(name, "rb");
    size_t n;
    if (file == NULL) {
        return -1;
    }
    n = fread(buffer, 1, size, file);
    if (ferror(file)) {
        fclose(file);
        return -1;
    }
    fclose(file);
    return (long)n;
}

int main(int argc, char **argv) {
    static jamfell_ledger ledger;
    /* A byte more than the longest attempt: what is longer is malformed, however it goes on. */
    static uint8_t attempt[JAMFELL_ATTEMPT_BYTES_MAX + 1];
    jamfell_report report;
    int i;
    jamfell_empty(&ledger);
    for (i = 1; i < argc; i++) {
        long n = read_file(argv[i], attempt, sizeof attempt);
        if (n < 0) {
            perror(argv[i]);
            return 1;
        }
        jamfell_apply(&ledger, attempt, (size_t)n, &report);
        print_report(&report);
    }
    printf("registries %" PRIu64 " credentials %" PRIu64 "\n", ledger.registry_count, ledger.credential_count);
    return 0;
}
