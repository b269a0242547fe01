/* Selvaigo: the storage core of a network node over a C boundary of numbers and slices.
 *
 * Link libselvaigo.a, which tools/staticlib.sh writes to target/staticlib.
 *
 * A slice is a pointer and a number of elements; a pointer of an empty slice is not null and aligned for its element. State records,
 * hashes and values are pointers to as many elements as their brackets say. What a call writes overlaps nothing else that it is
 * given. No call keeps a pointer, allocates, or takes a lock, and every call ends.
 *
 * Every call but three returns an answer: 0 where it was taken, else the number of its refusal (SELVAIGO_...). Beside a refusal
 * values are zeros, and no record and no slice is changed. Output beyond an answer isn't touched.
 *
 * A box is two state records and four tables, which the caller owns and lends to each call in the size and with the content that
 * the call before left. docs/LAYOUT.md has them word by word.
 *
 *   state    SELVAIGO_STATE words: the state record of the counters
 *   counts   2 words for each count that there is to be room for
 *   nursery  SELVAIGO_NURSERY words: the state record of the nursery
 *   entries  8 words for each entry that there is to be room for
 *   waiting  5 words for each of them
 *   cells    a byte for each byte of their cells
 *
 * A state of the counters never has more stored counts than its live total.
 *
 * A box has four settings. They are given where it is made or read in, stand in its records from then on, and no call changes them.
 *
 *   delay        nursery[3]  1 to 10,000      how many rounds a cell waits for its promotion
 *   shrink_base  state[13]   1 to shrink_max  the alive threshold of maintenance at the start, and after a good save
 *   shrink_max   state[14]   any              the most that it is doubled to
 *   good_save    state[15]   any              the least bytes saved that are a good save
 *
 * Making and reading in with one outside its range are refused with SELVAIGO_BAD_SETTING, before anything else. The standard ones
 * are named SELVAIGO_STANDARD_...; no call takes them by itself.
 *
 * The records of a box are hashed in one mode, and in keyed mode under one key. Each call that writes or reads them is given both:
 *
 *   keyed         0 for BLAKE3's hash mode, any other number for its keyed mode
 *   key, key_len  in keyed mode 32 bytes; in hash mode any slice, an empty one will do: no byte of it is looked at
 *
 * In keyed mode a key that isn't of 32 bytes, an empty one too, is refused with SELVAIGO_BAD_SETTING, before anything else, whatever
 * else the call is given. Neither mode nor key stands in a state record, a snapshot or a journal: the caller keeps them, and gives
 * them to each call. A whole record is SELVAIGO_MISMATCH exactly when its hash isn't the one in the mode and under the key given: so are
 * records of another key, or of none, as far as BLAKE3 keeps their hashes apart.
 *
 * A record and tables that hold no state in that layout are SELVAIGO_BROKEN, before all else; so is a record with a setting outside
 * its range. The check is a pass over the tables that the call is lent, and a look-up in the entries for each waiting row;
 * allocation is lent no table and checks nothing. A caller that lets nothing but these calls write its records and tables may use
 * the forms named .._held, which don't test it. Over a record and tables that hold no state these promise nothing, not even to stay
 * within them. */
#ifndef SELVAIGO_H
#define SELVAIGO_H

#include <stddef.h>
#include <stdint.h>

#ifdef __cplusplus
extern "C" {
#endif

enum {
    SELVAIGO_STATE = 16,
    SELVAIGO_NURSERY = 4
};

/* The standard settings. */
enum {
    SELVAIGO_STANDARD_DELAY = 100,
    SELVAIGO_STANDARD_SHRINK_BASE = 131072,
    SELVAIGO_STANDARD_SHRINK_MAX = 2097152,
    SELVAIGO_STANDARD_GOOD_SAVE = 1048576
};

/* Answers. */
enum {
    SELVAIGO_TAKEN = 0,
    SELVAIGO_SPENT = 1,          /* allocation with next index 2^64 - 1 */
    SELVAIGO_UNALLOCATED = 2,    /* an index at or above the next one is read or changed */
    SELVAIGO_REPEATED = 3,       /* two kept transitions of a batch name one index */
    SELVAIGO_OFF_TOTAL = 4,      /* the live total would leave its range */
    SELVAIGO_FALSE_OLD = 5,      /* an old count isn't the stored one */
    SELVAIGO_TABLE_FULL = 6,     /* stored counts after the call exceed the table */
    SELVAIGO_VERSION = 7,        /* the first byte of a snapshot isn't 1 */
    SELVAIGO_TORN_SNAPSHOT = 8,  /* it is empty, or ends before its eighth bitmap does */
    SELVAIGO_BAD_BITMAP = 9,     /* a bitmap breaks the format */
    SELVAIGO_BAD_LARGE = 10,     /* the rest isn't a multiple of 16, or a large count is below 257 */
    SELVAIGO_TIER_CLASH = 11,    /* an index is in both tiers, or not below the next index */
    SELVAIGO_PRESENT = 12,       /* an inserted hash is in the nursery, or earlier in the delta */
    SELVAIGO_NURSERY_FULL = 13,  /* entries or cell bytes after the inserts exceed the tables */
    SELVAIGO_TOO_LONG = 14,      /* a cell over 65,535 bytes, or a list over 2^32 - 1 items */
    SELVAIGO_OUTPUT_FULL = 15,   /* the lent output is shorter than the answer */
    SELVAIGO_SHORT_RECORD = 16,  /* under 40 bytes, or fewer than 40 and the stated length */
    SELVAIGO_FAR_LENGTH = 17,    /* a stated length at or above 2^64 - 8 */
    SELVAIGO_MISMATCH = 18,      /* the hash of a record isn't the one in the mode and under the key given */
    SELVAIGO_MISFIT = 19,        /* a stated length under 16, or items that run past it */
    SELVAIGO_BROKEN = 20,        /* what is lent isn't in the layout */
    SELVAIGO_DAMAGED = 21,       /* a record of a journal is refused with another number than 16 */
    SELVAIGO_LEFTOVER = 22,      /* bytes of a record's payload are left over after its last item */
    SELVAIGO_BAD_SETTING = 23,   /* a setting that a box is made or read in with is outside its range, or a key isn't of 32 bytes */
    /* No call answers 24. */
    SELVAIGO_FEW_CELLS = 25      /* fewer cells than counts: stored counts after the call exceed the live total */
};

/* ---- Counters ---- */

/* Counters with nothing stored, whose next index is handed over: writes state and counts, whatever was in them. The alive threshold is
 * shrink_base. The only refusal is SELVAIGO_BAD_SETTING; it changes neither. */
uint8_t selvaigo_new(uint64_t next_idx, uint64_t shrink_base, uint64_t shrink_max, uint64_t good_save,
                     uint64_t state[SELVAIGO_STATE], uint64_t *counts, size_t counts_len);

/* The next index, handed out: writes state, and idx[0]. */
uint8_t selvaigo_alloc_idx(uint64_t state[SELVAIGO_STATE], uint64_t idx[1]);

/* The count at an index: writes count[0]. */
uint8_t selvaigo_get(const uint64_t state[SELVAIGO_STATE], const uint64_t *counts, size_t counts_len, uint64_t idx,
                     uint64_t count[1]);
uint8_t selvaigo_get_held(const uint64_t state[SELVAIGO_STATE], const uint64_t *counts, size_t counts_len, uint64_t idx,
                          uint64_t count[1]);

/* A batch of transitions, three words each: index, old count, new count. Writes state and counts, all of it or nothing. Refused with
 * 2, 3, 5, 4, 6, whichever is met first in this order; then, if the whole batch would leave more stored counts than the live total that it
 * leaves, with SELVAIGO_FEW_CELLS. */
uint8_t selvaigo_apply_batch(uint64_t state[SELVAIGO_STATE], uint64_t *counts, size_t counts_len, const uint64_t *batch,
                             size_t batch_len);
uint8_t selvaigo_apply_batch_held(uint64_t state[SELVAIGO_STATE], uint64_t *counts, size_t counts_len, const uint64_t *batch,
                                  size_t batch_len);

/* Maintenance: which of the sets are to be shrunk, given the bytes that shrinking the set of all stored indices saves. Writes
 * state, and shrunk[0] for that set and shrunk[1] to shrunk[8] for the eight sets of small counts: 1 yes, 0 no. A yes sets the set's
 * removals to 0, and that of shrunk[0] also the alive threshold anew, by the settings of the record. */
uint8_t selvaigo_shrink_if_needed(uint64_t state[SELVAIGO_STATE], const uint64_t *counts, size_t counts_len,
                                  uint64_t bytes_saved, uint64_t shrunk[9]);
uint8_t selvaigo_shrink_if_needed_held(uint64_t state[SELVAIGO_STATE], const uint64_t *counts, size_t counts_len,
                                       uint64_t bytes_saved, uint64_t shrunk[9]);

/* The rule of it alone, 1 yes, 0 no; and the threshold that follows a yes: shrink_base where bytes_saved is good_save or more, else twice
 * the threshold, or shrink_max if that is less. These two and selvaigo_hash refuse nothing, whatever the numbers are. */
uint8_t selvaigo_should_shrink(uint64_t alive, uint64_t removed_since_shrink, uint64_t min_removed);
uint64_t selvaigo_adjust_shrink_threshold(uint64_t min_alive_removed_before_shrink, uint64_t bytes_saved, uint64_t shrink_base,
                                          uint64_t shrink_max, uint64_t good_save);

/* ---- Snapshots of the counters ---- */

/* How many bytes the snapshot takes: writes len[0]. */
uint8_t selvaigo_serialized_len(const uint64_t state[SELVAIGO_STATE], const uint64_t *counts, size_t counts_len,
                                uint64_t len[1]);
uint8_t selvaigo_serialized_len_held(const uint64_t state[SELVAIGO_STATE], const uint64_t *counts, size_t counts_len,
                                     uint64_t len[1]);

/* The snapshot: writes the first len[0] bytes of out, and len[0]. */
uint8_t selvaigo_serialize(const uint64_t state[SELVAIGO_STATE], const uint64_t *counts, size_t counts_len, uint8_t *out,
                           size_t out_len, uint64_t len[1]);
uint8_t selvaigo_serialize_held(const uint64_t state[SELVAIGO_STATE], const uint64_t *counts, size_t counts_len, uint8_t *out,
                                size_t out_len, uint64_t len[1]);

/* The counters that a snapshot holds, with settings, of which it has none: writes state and counts, whatever was in them. The alive
 * threshold is shrink_base, and removals are 0. A refusal changes neither. The first one, whatever the snapshot is, is
 * SELVAIGO_BAD_SETTING. The last one, after 7 to 11 and 6, is SELVAIGO_FEW_CELLS: the snapshot has more counts than its live total. */
uint8_t selvaigo_deserialize_trusted(const uint8_t *snapshot, size_t snapshot_len, uint64_t shrink_base, uint64_t shrink_max,
                                     uint64_t good_save, uint64_t state[SELVAIGO_STATE], uint64_t *counts, size_t counts_len);

/* The same for a snapshot of the time when counts were not held against the live total: it is refused with all that reading is refused
 * with but SELVAIGO_FEW_CELLS; instead a live total below the number of counts, each index counted once, is raised to that number.
 * Writes state and counts, whatever was in them, and old_total[0]: the live total that the snapshot has, 0 beside a refusal. Where it
 * equals state[1], nothing was raised, and reading with the same settings gives the same. The snapshot of what was loaded is read by the
 * call above. */
uint8_t selvaigo_load_snapshot(const uint8_t *snapshot, size_t snapshot_len, uint64_t shrink_base, uint64_t shrink_max,
                               uint64_t good_save, uint64_t state[SELVAIGO_STATE], uint64_t *counts, size_t counts_len,
                               uint64_t old_total[1]);

/* ---- Nursery ---- */

/* An empty nursery with a delay: writes nursery, entries, waiting and cells, whatever was in them. The only refusal is
 * SELVAIGO_BAD_SETTING; it changes none of them. */
uint8_t selvaigo_nursery_new(uint64_t delay, uint64_t nursery[SELVAIGO_NURSERY], uint64_t *entries, size_t entries_len,
                             uint64_t *waiting, size_t waiting_len, uint8_t *cells, size_t cells_len);

/* A delta: as many inserts as stated (hash 32, index u64, born round u32, cell length u16, cell), then as many removes
 * (hash 32), end to end, little-endian; where wide isn't 0 a cell length is a u32. Items that run past their bytes are SELVAIGO_BROKEN; bytes
 * after the last item are ignored, here as in encoding, though not in a record. Writes nursery, entries, waiting and cells, all of it or nothing. */
uint8_t selvaigo_apply_commit(uint64_t nursery[SELVAIGO_NURSERY], uint64_t *entries, size_t entries_len, uint64_t *waiting,
                              size_t waiting_len, uint8_t *cells, size_t cells_len, uint8_t wide, uint64_t inserts,
                              uint64_t removes, const uint8_t *items, size_t items_len);
uint8_t selvaigo_apply_commit_held(uint64_t nursery[SELVAIGO_NURSERY], uint64_t *entries, size_t entries_len, uint64_t *waiting,
                                   size_t waiting_len, uint8_t *cells, size_t cells_len, uint8_t wide, uint64_t inserts,
                                   uint64_t removes, const uint8_t *items, size_t items_len);

/* The waiting entries born at or before round - delay, the record's, by born round, then arrival; none where round is below it. They
 * stay as entries and wait no longer. Writes nursery, waiting, len[0], and the first len[0] bytes of out: for each hash 32, index u64,
 * cell length u16, cell. */
uint8_t selvaigo_drain_promotable(uint64_t nursery[SELVAIGO_NURSERY], const uint64_t *entries, size_t entries_len,
                                  uint64_t *waiting, size_t waiting_len, const uint8_t *cells, size_t cells_len, uint32_t round,
                                  uint8_t *out, size_t out_len, uint64_t len[1]);
uint8_t selvaigo_drain_promotable_held(uint64_t nursery[SELVAIGO_NURSERY], const uint64_t *entries, size_t entries_len,
                                       uint64_t *waiting, size_t waiting_len, const uint8_t *cells, size_t cells_len,
                                       uint32_t round, uint8_t *out, size_t out_len, uint64_t len[1]);

/* The index of a hash: writes found[0], 1 where there is an entry, and its index into found[1]. */
uint8_t selvaigo_get_idx(const uint64_t nursery[SELVAIGO_NURSERY], const uint64_t *entries, size_t entries_len,
                         const uint8_t hash[32], uint64_t found[2]);
uint8_t selvaigo_get_idx_held(const uint64_t nursery[SELVAIGO_NURSERY], const uint64_t *entries, size_t entries_len,
                              const uint8_t hash[32], uint64_t found[2]);

/* The cell of a hash: writes found[0], 1 where there is an entry, and where its cell lies in cells: place found[1], length found[2]. */
uint8_t selvaigo_get_data(const uint64_t nursery[SELVAIGO_NURSERY], const uint64_t *entries, size_t entries_len,
                          const uint8_t *cells, size_t cells_len, const uint8_t hash[32], uint64_t found[3]);
uint8_t selvaigo_get_data_held(const uint64_t nursery[SELVAIGO_NURSERY], const uint64_t *entries, size_t entries_len,
                               const uint8_t *cells, size_t cells_len, const uint8_t hash[32], uint64_t found[3]);

/* The listing, by ascending hash: writes len[0] and the first len[0] bytes of out, each entry as a delta's insert that isn't wide. It takes 46 bytes
 * for each entry beside the cells: nursery[0] * 46 + nursery[2]. */
uint8_t selvaigo_snapshot_entries(const uint64_t nursery[SELVAIGO_NURSERY], const uint64_t *entries, size_t entries_len,
                                  const uint8_t *cells, size_t cells_len, uint8_t *out, size_t out_len, uint64_t len[1]);
uint8_t selvaigo_snapshot_entries_held(const uint64_t nursery[SELVAIGO_NURSERY], const uint64_t *entries, size_t entries_len,
                                       const uint8_t *cells, size_t cells_len, uint8_t *out, size_t out_len, uint64_t len[1]);

/* ---- Hash, records, journal ---- */

/* BLAKE3 of bytes: writes hash. */
void selvaigo_hash(const uint8_t *bytes, size_t bytes_len, uint8_t hash[32]);

/* BLAKE3 of bytes under a key: writes hash. The only refusal is SELVAIGO_BAD_SETTING, of a key that isn't of 32 bytes. */
uint8_t selvaigo_keyed_hash(const uint8_t *key, size_t key_len, const uint8_t *bytes, size_t bytes_len, uint8_t hash[32]);

/* The record of a delta (stated as for selvaigo_apply_commit; what follows its items is ignored and not written): writes the first
 * figures[0] bytes of out, and the figures: the record's length, payload bytes, metadata bytes, cell bytes, inserts, removes. Refused with
 * SELVAIGO_BAD_SETTING for its key; then with 20, 14, 15. */
uint8_t selvaigo_encode_record(uint8_t keyed, const uint8_t *key, size_t key_len, uint64_t id, uint8_t wide, uint64_t inserts,
                               uint64_t removes, const uint8_t *items, size_t items_len, uint8_t *out, size_t out_len,
                               uint64_t figures[6]);

/* The record that bytes start with, whatever follows it: writes its hash, and the figures: id, place of the items in bytes, their length,
 * payload bytes, metadata bytes, cell bytes, inserts, removes. Refused with SELVAIGO_BAD_SETTING for its key; then with 16 to 19; then, if its
 * payload goes on after the last item, with SELVAIGO_LEFTOVER. What is taken is what selvaigo_encode_record writes in that mode, byte for
 * byte. */
uint8_t selvaigo_decode_record(uint8_t keyed, const uint8_t *key, size_t key_len, const uint8_t *bytes, size_t bytes_len,
                               uint64_t figures[8], uint8_t hash[32]);

/* The records of a journal, one after another, whatever their deltas are; none is applied. Writes scan: how many are taken, the place after the
 * last of them, and the number that the record there is refused with: 0 at the journal's end, 16 where it is cut. Any other number is
 * damage, SELVAIGO_LEFTOVER among them: reading the journal is refused. The only refusal of the scan is SELVAIGO_BAD_SETTING, of its key. */
uint8_t selvaigo_scan_journal(uint8_t keyed, const uint8_t *key, size_t key_len, const uint8_t *journal, size_t journal_len,
                              uint64_t scan[3]);

/* A journal, read into an empty nursery with a delay, of which it says nothing: writes nursery, entries, waiting and cells, whatever was
 * in them, and read: records applied, the place after the last of them, and the number that ended it: 0 at the journal's end, 16 where
 * the record there is cut, 12 or 13 where its delta is refused, and no other; what was applied stays. There are two refusals:
 * SELVAIGO_BAD_SETTING, of key or delay, whatever the journal is; and SELVAIGO_DAMAGED, where the scan above finds damage, also behind a delta
 * that would be refused; it comes before any delta is applied. A journal of another key or mode has such damage in its first record, if that is
 * whole and BLAKE3 keeps the hashes apart. */
uint8_t selvaigo_read_journal(uint8_t keyed, const uint8_t *key, size_t key_len, const uint8_t *journal, size_t journal_len,
                              uint64_t delay, uint64_t nursery[SELVAIGO_NURSERY], uint64_t *entries, size_t entries_len,
                              uint64_t *waiting, size_t waiting_len, uint8_t *cells, size_t cells_len, uint64_t read[3]);

/* A journal of the time when bytes after a payload's last item were passed over, rewritten for the rule that refuses them: each record
 * without such leftovers, with its length and its hash set anew; one that has none comes out as it was. From the first record on that is
 * refused with 16 to 19 all bytes are copied unchanged: a cut stays a cut, and damage stays damage. Reading the new journal gives what reading the
 * old one gave then, and converting it again changes nothing. It is always done in hash mode: records under
 * a key are 18 there, so a journal of them comes out as it was.
 *
 * Writes the new journal to the front of out, and to the front of dropped 16 bytes for each record that had leftovers: the place of the first of
 * them in the old journal and how many they are, each a u64, little-endian; and lengths: bytes of the new journal, bytes of that list. The
 * only refusal is SELVAIGO_OUTPUT_FULL, where either output is shorter than what goes there; it is decided before either is touched. An out of
 * journal_len bytes and a dropped of 16 * (journal_len / 57) are always enough. */
uint8_t selvaigo_convert_journal(const uint8_t *journal, size_t journal_len, uint8_t *out, size_t out_len, uint8_t *dropped,
                                 size_t dropped_len, uint64_t lengths[2]);

#ifdef __cplusplus
}
#endif
#endif
