/* The clerk's example A from C: two masters change station 10, and the smaller csn wins. Prints the report of document 01, and what a
 * depot's read checks then find.
 *
 *   tools/build
 *   cc -Iinclude examples/close.c target/staticlib/libcastorpedal.a -o target/close_c && target/close_c
 */
#include "castorpedal.h"
#include <stdio.h>
#include <stdlib.h>
#include <string.h>

static uint8_t sheet[CASTORPEDAL_SHEET_ROOM], spare[CASTORPEDAL_SHEET_ROOM];
static size_t sheet_len;
static uint8_t next[CASTORPEDAL_REGISTER_ROOM], verdicts[CASTORPEDAL_VERDICT_ROOM];

static void stop_if_refused(uint32_t code) {
    if (code) {
        printf("refused %u\n", code);
        exit(1);
    }
}

/* A sheet that was written into the spare buffer takes the place of the one before it. */
static void take(struct castorpedal_answer answer) {
    stop_if_refused(answer.code);
    memcpy(sheet, spare, answer.len);
    sheet_len = answer.len;
}

/* The little-endian word of n bytes. */
static unsigned long long word(const uint8_t *bytes, size_t n) {
    unsigned long long number = 0;
    while (n-- > 0)
        number = number << 8 | bytes[n];
    return number;
}

/* Where things stand: document 01, 'Register', 'Sheet' and 'Closing'. */
static void print_report(void) {
    static const char *const codes[] = {"", "commit", "lost", "unfit"};
    printf("snapshot %llu rows %llu\n", word(next, 4), word(next + 4, 4));
    for (size_t i = 0; i < sheet[7]; i++) {
        const uint8_t *set = sheet + 24 + 16 * i, *verdict = verdicts + 5 * i;
        printf("set %llu %s %llu\n", word(set, 8), codes[verdict[0]], word(verdict + 1, 4));
    }
    for (size_t i = 0; i < word(next + 4, 4); i++) {
        const uint8_t *row = next + 8 + 28 * i;
        printf("row %llu %llu %llu %llu %llu\n", word(row, 4), word(row + 4, 8), word(row + 12, 4), word(row + 16, 4), word(row + 20, 8));
    }
}

static void print_check(struct castorpedal_checked c) {
    stop_if_refused(c.code);
    printf("check %u %u %u %u\n", c.code, c.index, c.key, c.reason);
}

int main(void) {
    /* The lowest bytes of the numbers that are not 0: snapshot 0, two rows, 10 = 1 and 20 = 0, fresh marks; changes 10 := 6, 10 := 2. */
    const uint8_t reg[8 + 2 * 28] = {[4] = 2, [8] = 10, [12] = 1, [36] = 20};
    const uint8_t six[16] = {[0] = 1, [4] = 10, [8] = 6}, two[16] = {[0] = 1, [4] = 10, [8] = 2};

    take(castorpedal_open(1, 40, spare, sizeof spare)); /* epoch 1, masters 3 and 5 */
    take(castorpedal_put(sheet, sheet_len, 1, 1, 3, six, sizeof six, spare, sizeof spare)); /* epoch, sen, csn */
    take(castorpedal_put(sheet, sheet_len, 1, 1, 5, two, sizeof two, spare, sizeof spare));
    take(castorpedal_notice(sheet, sheet_len, 1, 3, 1, spare, sizeof spare)); /* epoch, master, its number of sets */
    take(castorpedal_notice(sheet, sheet_len, 1, 5, 1, spare, sizeof spare));
    take(castorpedal_join(sheet, sheet_len, sheet, sheet_len, spare, sizeof spare)); /* a sheet that comes again changes nothing */

    struct castorpedal_closed closed =
        castorpedal_close(reg, sizeof reg, sheet, sheet_len, next, sizeof next, verdicts, sizeof verdicts);
    stop_if_refused(closed.code);
    print_report();

    /* The depot had read station 10 with the fresh mark's csn, 0: the reads as two lists, and as one list. */
    const uint32_t keys[1] = {10};
    const uint64_t csns[1] = {0};
    const struct castorpedal_read reads[1] = {{10, 0}};
    print_check(castorpedal_check(next, closed.register_len, 2, 0, keys, 1, csns, 1));
    print_check(castorpedal_check_reads(next, closed.register_len, 2, 0, reads, 1));
    return 0;
}
