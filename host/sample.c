/* Document 01's sample session through the library. Prints its eight lines, then some numbers of the other calls. */
#include "externals.h"

#include <inttypes.h>
#include <stdio.h>
#include <string.h>

static uint8_t tables[EXT_TABLES_BYTES], area[EXT_AREA_BYTES], out[1024 * EXT_ENTRY_BYTES];
static ext_externals e;

/* A number of `n` bytes, little-endian. */
static uint64_t number_at(const uint8_t *p, int n) {
    uint64_t v = 0;
    while (n-- > 0) v = v << 8 | p[n];
    return v;
}

/* An anchor whose messages go to an account of zeros, one for each workchain. */
static int add(uint32_t id, ext_chain_time ct, uint32_t ours, const int8_t *workchains, size_t count) {
    uint8_t messages[3 * EXT_MESSAGE_BYTES] = {0};
    ext_anchor anchor = {.id = id, .chain_time = ct};
    for (size_t i = 0; i < count; i++) messages[i * EXT_MESSAGE_BYTES] = (uint8_t)workchains[i];
    return ext_add(&e.transaction, tables, sizeof tables, area, sizeof area, anchor, ours, messages, count * EXT_MESSAGE_BYTES);
}

static void show_entries(size_t used) {
    for (const uint8_t *p = out; p < out + used; p += EXT_ENTRY_BYTES)
        printf("add %" PRIu64 " %" PRIu64 " %" PRIu64 " %" PRIu64 " %" PRIu64 "\n", number_at(p, 4), number_at(p + 4, 2), number_at(p + 6, 4), number_at(p + 10, 8), number_at(p + 18, 8));
}

static void show_ranges(const ext_reader_state *s) {
    for (size_t i = 0; i < s->len; i++) {
        const ext_range *r = &s->ranges[i];
        printf("range %" PRIu32 " %" PRIu32 " %" PRIu64 " %" PRIu32 " %" PRIu64 " %d\n", r->seqno, r->to.anchor_id, r->to.msgs_offset, r->current_position.anchor_id, r->current_position.msgs_offset, r->fully_read);
    }
}

int main(void) {
    e.transaction = ext_new_transaction();
    e.reader.for_shard_id = (ext_shard){.workchain = 0, .prefix = 0x8000000000000000};
    e.reader.block_seqno = 5;
    e.reader.next_chain_time = (ext_chain_time){61000};
    e.reader.msgs_exec_params = (ext_params){.externals_expire_timeout = {60}, .open_ranges_limit = 4};
    for (int i = 0; i < EXT_PARTITIONS; i++) e.reader.buffer_limits_by_partitions[i] = i == 0 ? 2 : EXT_NO_LIMIT;
    if (ext_new_reader(&e.reader) != 0) return 1;
    if (add(1, (ext_chain_time){1000}, 1, (int8_t[]){0}, 1) != 0) return 1;
    if (add(2, (ext_chain_time){2000}, 2, (int8_t[]){0, -1, 0}, 3) != 0) return 1;

    printf("open %d\n", ext_open(&e.transaction, tables, sizeof tables, area, sizeof area));
    ext_all_answer read = ext_read_into_buffers(&e, out, sizeof out, tables, sizeof tables, area, sizeof area, out, 0, false);
    printf("read %d\n", read.number);
    if (read.free.present) printf("free %d\n", read.free.places);
    show_entries(read.used);
    show_ranges(&e.reader.reader_state);
    printf("close %d\n", ext_close(&e.transaction, tables, sizeof tables, area, sizeof area));
    printf("end %zu %zu %d\n", e.transaction.cache.len, e.transaction.cache.history_len, e.transaction.cache.pending);

    /* Beyond the session: the host takes both messages, one too many is refused, and both places are free again. */
    ext_by_partitions counts = ext_count_messages_in_buffers_by_partitions(e.reader);
    printf("count %d %" PRIu32 "\n", counts.number, counts.values[0]);
    printf("taken %d\n", ext_messages_taken(&e.reader, 5, 0, 2));
    printf("taken %d\n", ext_messages_taken(&e.reader, 5, 0, 1));
    ext_buffer_limits limits;
    memcpy(limits.by_partitions, e.reader.buffer_limits_by_partitions, sizeof limits.by_partitions);
    ext_free_answer left = ext_get_max_buffers_fill_state(limits, e.reader.reader_state.ranges[0]);
    printf("left %d %d\n", left.number, left.free);
    printf("increment %d %d\n", ext_increment_curr_processed_offset(&e.reader, 0), ext_increment_curr_processed_offset(&e.reader, 1));
    printf("finalize %d\n", ext_finalize(&e.reader));
    ext_anchor_shown front = ext_pop_front(&e.transaction, tables, sizeof tables, area, sizeof area);
    printf("pop %d %" PRIu32 " %" PRIu64 " %zu\n", front.number, front.anchor.id, front.anchor.chain_time.ms, front.anchor.count);
    return 0;
}
