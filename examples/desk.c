/* The visit desk from C: a clerk types two visits, offers them as one set, and the epoch is closed. Prints what examples/desk.rs prints.
 *
 *   tools/build
 *   cc -Iinclude examples/desk.c target/staticlib/libcastorpedal.a -o target/desk_c && target/desk_c
 */
#include "castorpedal.h"
#include <stdio.h>
#include <stdlib.h>

static uint8_t opened[CASTORPEDAL_SHEET_ROOM], offered[CASTORPEDAL_SHEET_ROOM], noticed[CASTORPEDAL_SHEET_ROOM];
static uint8_t next[CASTORPEDAL_REGISTER_ROOM], verdicts[CASTORPEDAL_VERDICT_ROOM];

static void stop_if_refused(uint32_t code) {
    if (code) {
        printf("refused %u\n", code);
        exit(1);
    }
}

/* The length that was written. */
static size_t written(struct castorpedal_answer answer) {
    stop_if_refused(answer.code);
    return answer.len;
}

/* The little-endian word of n bytes. */
static unsigned long long word(const uint8_t *bytes, size_t n) {
    unsigned long long number = 0;
    while (n-- > 0)
        number = number << 8 | bytes[n];
    return number;
}

/* Where things stand: docs/FORMS.md. */
static void print_set(const struct castorpedal_open_set *set) {
    for (size_t i = 0; i < set->count; i++) {
        const uint8_t *record = set->records + 16 * i;
        printf("typed %u %llu %llu\n", record[0], word(record + 4, 4), word(record + 8, 8));
    }
}

static void print_report(void) {
    static const char *const codes[] = {"", "commit", "lost", "unfit"};
    printf("set 3 %s %llu\n", codes[verdicts[0]], word(verdicts + 1, 4));
    for (size_t i = 0; i < word(next + 4, 4); i++) {
        const uint8_t *row = next + 8 + 28 * i;
        printf("row %llu %llu %llu %llu %llu\n", word(row, 4), word(row + 4, 8), word(row + 12, 4), word(row + 16, 4), word(row + 20, 8));
    }
}

int main(void) {
    /* The lowest bytes of the numbers that are not 0: two rows, 20 = 0 and 572 = 1, fresh marks. */
    const uint8_t reg[8 + 2 * 28] = {[4] = 2, [8] = 20, [36] = 572 % 256, [37] = 572 / 256, [40] = 1};
    const uint8_t *station = (const uint8_t *)"00000005724", *slip = (const uint8_t *)"00000005742";
    struct castorpedal_open_set set = {0};
    uint8_t tag[CASTORPEDAL_TAG_ROOM];

    stop_if_refused(castorpedal_desk_enter(&set, 1, station, 11, 6)); /* a change: station 572 is to have 6 */
    if (castorpedal_desk_enter(&set, 1, slip, 11, 6) != 11) /* two digits exchanged: the set stays as it was */
        return 1;
    size_t tag_len = written(castorpedal_desk_tag(20, tag, sizeof tag));
    stop_if_refused(castorpedal_desk_enter(&set, 3, tag, tag_len, 0)); /* a delete: typed later, but 20 is the smaller key */
    print_set(&set);

    size_t len = written(castorpedal_open(1, 8, opened, sizeof opened)); /* epoch 1, master 3 */
    len = written(castorpedal_desk_offer(&set, opened, len, 1, 1, 3, offered, sizeof offered)); /* epoch, sen, csn */
    len = written(castorpedal_notice(offered, len, 1, 3, 1, noticed, sizeof noticed)); /* epoch, master, its number of sets */
    print_set(&set); /* nothing: it is ready for the next */

    stop_if_refused(castorpedal_close(reg, sizeof reg, noticed, len, next, sizeof next, verdicts, sizeof verdicts).code);
    print_report();
    return 0;
}
