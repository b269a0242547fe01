/* A box's counters in C: they are made with the standard settings; an index is handed out, gets a count, and is written into a snapshot; a
 * batch that is wrong is refused, and so is a shrink base above its maximum.
 *
 *   tools/staticlib.sh
 *   cc -std=c11 -Iinclude examples/c/box.c target/staticlib/libselvaigo.a -o target/box && target/box
 */
#include <inttypes.h>
#include <stdio.h>

#include "selvaigo.h"

int main(void) {
    uint64_t state[SELVAIGO_STATE], counts[2 * 1024], idx, count, len;
    uint8_t out[1024];
    const uint64_t base = SELVAIGO_STANDARD_SHRINK_BASE, max = SELVAIGO_STANDARD_SHRINK_MAX, good_save = SELVAIGO_STANDARD_GOOD_SAVE;
    if (selvaigo_new(0, base, max, good_save, state, counts, 2 * 1024) != SELVAIGO_TAKEN) return 1;
    if (selvaigo_alloc_idx(state, &idx) != SELVAIGO_TAKEN) return 1;
    const uint64_t birth[3] = {idx, 0, 3}, wrong[3] = {idx, 2, 5};
    /* Nothing but these calls writes state and counts, so the held forms will do. */
    if (selvaigo_apply_batch_held(state, counts, 2 * 1024, birth, 3) != SELVAIGO_TAKEN) return 1;
    if (selvaigo_get_held(state, counts, 2 * 1024, idx, &count) != SELVAIGO_TAKEN) return 1;
    if (selvaigo_serialize_held(state, counts, 2 * 1024, out, sizeof out, &len) != SELVAIGO_TAKEN) return 1;
    printf("count %" PRIu64 ", snapshot of %" PRIu64 " bytes\n", count, len);
    const uint8_t false_old = selvaigo_apply_batch_held(state, counts, 2 * 1024, wrong, 3);
    /* A refused reading, too, leaves state and counts as they are. */
    const uint8_t bad_setting = selvaigo_deserialize_trusted(out, len, max + 1, max, good_save, state, counts, 2 * 1024);
    printf("an old count of 2: refused with %d; a shrink base above its maximum: refused with %d\n", false_old, bad_setting);
    return 0;
}
