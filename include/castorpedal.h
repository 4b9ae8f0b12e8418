/* Castorpedal: registers of pay stations, sheets of an epoch's write sets, closing an epoch, a depot's own read check, and the visit desk.
 *
 * Every function ends on all inputs, examines the forms of what it is given, and reads nothing beyond the lengths that it is told. A slice
 * is a pointer and a length; a pointer of length 0 is not read, but is not null. A buffer that is lent for writing overlaps no other. An open
 * set that is lent is not null, and overlaps nothing else that is lent.
 *
 * A refusal answers its number, the smallest that applies (but of a tag 11 before 9), with all lengths 0, and changes no lent byte. A
 * success answers code 0 and writes the named length at the start of the buffer; the bytes after it stay.
 *
 *   1 register ill-formed            6 close: the sheet is spoiled
 *   2 sheet ill-formed               7 close: a roster master has no notice, or fewer sets than it says
 *   3 set or notice ill-formed;      8 close: the next register would have over 1,024 rows
 *     desk: open set, kind, value    9 an output buffer is too short
 *   4 epoch 0, or another epoch     10 read check: mode, key, number of entries or lsn
 *   5 roster 0, another roster,     11 desk: bad tag, or key out of range
 *     or the master is not in it    12 desk: the key is already in the open set
 *                                   13 desk: a ninth record
 *
 * docs/FORMS.md has the layouts and what to do about each refusal.
 */
#ifndef CASTORPEDAL_H
#define CASTORPEDAL_H

#include <stddef.h>
#include <stdint.h>

#ifdef __cplusplus
extern "C" {
#endif

/* The least lengths of the buffers lent for writing. */
#define CASTORPEDAL_SHEET_ROOM 9240
#define CASTORPEDAL_REGISTER_ROOM 28680
#define CASTORPEDAL_VERDICT_ROOM 320
#define CASTORPEDAL_TAG_ROOM 11

/* code 0: done, and len bytes were written; else the refusal's number, and len is 0. */
struct castorpedal_answer {
    uint32_t code, len;
};

struct castorpedal_closed {
    uint32_t code, register_len, verdicts_len;
};

/* A pass: all 0. A failing entry: code 0, its index (from 0) and key, and reason 1 gone, 2 another csn, 3 too new. */
struct castorpedal_checked {
    uint32_t code, index, key, reason;
};

/* A key that was read, and the csn seen with it. */
struct castorpedal_read {
    uint32_t key;
    uint64_t csn;
};

/* The set that a clerk is typing: count records of 16 bytes, 0 to 8, their keys strictly ascending, and zero bytes behind them. The empty
 * one, which typing begins with, is all zero. */
struct castorpedal_open_set {
    uint32_t count;
    uint8_t records[128];
};

/* The sound sheet of an epoch and a roster, with no set and no notice. Refusals: 4 epoch 0, 5 roster 0, 9. */
struct castorpedal_answer castorpedal_open(uint32_t epoch, uint16_t roster, uint8_t *out, size_t out_len);

/* The sheet with one set more: its epoch, sen, csn, and 1 to 8 records of 16 bytes. Refusals: 2, 3, 4, 5, 9. */
struct castorpedal_answer castorpedal_put(const uint8_t *sheet, size_t sheet_len, uint32_t epoch, uint32_t sen, uint64_t csn,
                                          const uint8_t *records, size_t records_len, uint8_t *out, size_t out_len);

/* The sheet with a notice more: master 0 to 15 sent count sets, 0 to 64. Refusals: 2, 3, 4, 5, 9. */
struct castorpedal_answer castorpedal_notice(const uint8_t *sheet, size_t sheet_len, uint32_t epoch, uint8_t master, uint8_t count,
                                             uint8_t *out, size_t out_len);

/* The sheet of two sheets' offers together. Refusals: 2, 4 epochs differ, 5 rosters differ, 9. */
struct castorpedal_answer castorpedal_join(const uint8_t *a, size_t a_len, const uint8_t *b, size_t b_len, uint8_t *out,
                                           size_t out_len);

/* The next register, and five bytes a set of verdicts: code 1 commit, 2 lost, 3 unfit, and the key. The register and the sheet are only
 * read. Refusals: 1, 2, 4, 6, 7, 8, 9 (either buffer). */
struct castorpedal_closed castorpedal_close(const uint8_t *reg, size_t reg_len, const uint8_t *sheet, size_t sheet_len, uint8_t *next,
                                            size_t next_len, uint8_t *verdicts, size_t verdicts_len);

/* Whether what a depot read still stands: mode 1 Read Committed, 2 Repeatable Read, 3 Snapshot Isolation with latest snapshot lsn. At
 * most 32 entries, as a list of keys and a list of csns of the same length. Refusals: 1, 10. */
struct castorpedal_checked castorpedal_check(const uint8_t *reg, size_t reg_len, uint8_t mode, uint32_t lsn, const uint32_t *keys,
                                             size_t keys_len, const uint64_t *csns, size_t csns_len);

/* The same with the entries as one list. */
struct castorpedal_checked castorpedal_check_reads(const uint8_t *reg, size_t reg_len, uint8_t mode, uint32_t lsn,
                                                   const struct castorpedal_read *reads, size_t reads_len);

/* One record more in the open set, in key order: kind 1 change, 2 insert, 3 delete (value 0), and the station's tag, eleven ASCII digits.
 * Answers 0, or the refusal's number: 3 open set, kind or value ill-formed, 11, 12, 13. */
uint32_t castorpedal_desk_enter(struct castorpedal_open_set *set, uint8_t kind, const uint8_t *tag, size_t tag_len, uint64_t value);

/* The sheet with the open set put in as one set, as castorpedal_put does it; the open set is then empty, also where this spoils the sheet.
 * Refusals: 2, 3 (also an open set that is ill-formed or empty), 4, 5, 9. */
struct castorpedal_answer castorpedal_desk_offer(struct castorpedal_open_set *set, const uint8_t *sheet, size_t sheet_len,
                                                 uint32_t epoch, uint32_t sen, uint64_t csn, uint8_t *out, size_t out_len);

/* The tag of a key: ten digits, with leading zeros, and a check digit, with no zero byte behind them. Refusals: 11 key 0, then 9. */
struct castorpedal_answer castorpedal_desk_tag(uint32_t key, uint8_t *out, size_t out_len);

#ifdef __cplusplus
}
#endif

#endif
