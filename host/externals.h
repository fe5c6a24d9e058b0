/* The externals reader and its anchors cache, for a C host. Link with crates/host/out/libhost.a (`rt lib` in crates/host).
 *
 * Every call answers a number: 0 is done, any other is the first of document 01's questions that was answered "no"; a refused call
 * leaves every state and every lent byte as it was.
 *
 * What a call changes it is lent by a pointer; what it only looks at it takes by value. Lent bytes are a pointer and a length.
 * The host sees to these, since no call can ask them:
 *   - a pointer is not null and points to the whole struct, or to as many bytes as the length says, also where the length is 0;
 *   - what a call may change (a pointer without `const`) overlaps nothing else that it is handed, and no other thread touches it;
 *   - a `bool` is 0 or 1.
 *
 * A chain time and a timeout are types of their own. A number does not turn into either without being asked. */
#ifndef EXTERNALS_H
#define EXTERNALS_H

#include <stdbool.h>
#include <stddef.h>
#include <stdint.h>

#ifdef __cplusplus
#define EXT_ASSERT static_assert
extern "C" {
#else
#define EXT_ASSERT _Static_assert
#endif

/* Chain time, in milliseconds. */
typedef struct { uint64_t ms; } ext_chain_time;

/* An expiry timeout, in whole seconds. */
typedef struct { uint32_t s; } ext_seconds;

/* Bytes of what the host lends. The area and the tables are at least so long, or the calls answer 1 and 5. */
#define EXT_TABLES_BYTES 14912
#define EXT_AREA_BYTES 33792
#define EXT_MESSAGE_BYTES 33 /* workchain 1, account 32 */
#define EXT_ROUTE_BYTES 34   /* workchain 1, account 32, partition 1 */
#define EXT_ENTRY_BYTES 26   /* seqno 4, partition 2, anchor id 4, offset 8, chain time 8, little-endian */
#define EXT_PARTITIONS 8
#define EXT_RANGES 16
#define EXT_NO_LIMIT 65535 /* the partition has no limit, that is no entry */
#define EXT_LOG_BYTES 64   /* the most that a transaction's undo log takes, whatever the cache holds */

/* The place after a message that was read. */
typedef struct { uint32_t anchor_id; uint64_t msgs_offset; } ext_key;

/* the lowest set bit of the prefix ends it; workchain -1 has the prefix 0x8000000000000000 alone (else 2) */
typedef struct { int32_t workchain; uint64_t prefix; } ext_shard;

/* ---- the cache: where its anchors and the history stand in the tables, in rows, and the first message in the area */
typedef struct {
    size_t first, len, history_first, history_len, base;
    bool pending;
} ext_cache;

/* `undo` is what a rollback restores. */
typedef struct {
    ext_cache cache, undo;
    bool active, committed;
} ext_transaction;

/* The layout that the library was compiled for. The undo log is what a transaction holds beside its cache. */
EXT_ASSERT(sizeof(ext_cache) == 48 && sizeof(ext_transaction) == 104, "another layout than the library's");
EXT_ASSERT(sizeof(ext_transaction) - sizeof(ext_cache) <= EXT_LOG_BYTES, "the undo log has grown");

/* An anchor as it is imported. */
typedef struct {
    uint32_t id;
    ext_chain_time chain_time;
    uint8_t author[32];
} ext_anchor;

/* A cached anchor; its `count` messages stand in the area from `place` on, in messages. */
typedef struct {
    uint32_t id;
    ext_chain_time chain_time;
    uint32_t ours;
    size_t count, place;
} ext_cached_anchor;

/* An entry of the imported history. */
typedef struct {
    uint32_t id;
    ext_chain_time ct;
    uint32_t all_exts_count, our_exts_count;
} ext_anchor_info;

/* A history entry with its author. */
typedef struct {
    ext_anchor_info info;
    uint8_t author[32];
} ext_history_entry;

/* ---- the reader. Where a partition is not present its numbers are free. */
typedef struct {
    uint32_t count, skip_offset, processed_offset;
    bool present;
} ext_range_partition;

typedef struct {
    uint32_t seqno;
    ext_key from, to, current_position;
    ext_chain_time chain_time;
    bool fully_read;
    ext_range_partition by_partitions[EXT_PARTITIONS];
} ext_range;

typedef struct {
    ext_key processed_to;
    uint32_t curr_processed_offset;
    bool present;
} ext_partition;

/* A chain time, where there is one. */
typedef struct {
    bool present;
    ext_chain_time time;
} ext_saved_time;

/* `len` ranges, by rising seqno. All zero: no range, no partition. */
typedef struct {
    ext_range ranges[EXT_RANGES];
    size_t len;
    ext_partition by_partitions[EXT_PARTITIONS];
    ext_saved_time last_read_to_anchor_chain_time;
} ext_reader_state;

/* `new_is_some`: new settings wait. */
typedef struct {
    ext_seconds externals_expire_timeout;
    uint8_t open_ranges_limit;
    bool new_is_some;
} ext_params;

typedef struct {
    ext_shard for_shard_id;
    uint32_t block_seqno;
    ext_chain_time next_chain_time;
    ext_params msgs_exec_params;
    uint16_t buffer_limits_by_partitions[EXT_PARTITIONS];
    ext_reader_state reader_state;
    bool all_ranges_fully_read;
} ext_reader;

/* What a read of all ranges changes. Calls on the cache take &e.transaction, calls on the reader &e.reader. */
typedef struct {
    ext_transaction transaction;
    ext_reader reader;
} ext_externals;

/* What a read of one range changes, and what it is told. `to_previous`: only to the end that was read to before. */
typedef struct {
    ext_transaction transaction;
    ext_range range;
} ext_range_and_cache;

typedef struct {
    ext_key key;
    bool present;
} ext_processed_to;

typedef struct {
    ext_shard shard;
    uint16_t limits[EXT_PARTITIONS];
    ext_processed_to processed[EXT_PARTITIONS];
    ext_seconds timeout;
    bool to_previous;
} ext_range_settings;

typedef struct { uint16_t by_partitions[EXT_PARTITIONS]; } ext_buffer_limits;

/* ---- answers. Without `found` the rest is zero. */
typedef struct { uint8_t number; bool flag; } ext_flag;

typedef struct {
    uint8_t number;
    bool found;
    ext_cached_anchor anchor;
    uint8_t author[32];
} ext_anchor_shown;

typedef struct {
    uint8_t number;
    bool found;
    ext_anchor_info info;
    uint8_t author[32];
} ext_info_shown;

typedef struct { uint8_t number, partition; } ext_partition_shown;

/* Messages of ours per partition. */
typedef struct { uint32_t read[EXT_PARTITIONS], expired[EXT_PARTITIONS], buffered[EXT_PARTITIONS]; } ext_counts;

/* The free places of a range: the fewest that one of its buffers has left, which is limit less count, or 0 where it is
 * full; 1,024 where the range has no partition. Reads tell them as they stand at their end. */
typedef struct { uint8_t number; uint16_t free; } ext_free_answer;

/* Those of the last range that a read of all ranges has read; not present where it read none. */
typedef struct { bool present; uint16_t places; } ext_free;

/* The entries take the first `used` bytes of the output. */
typedef struct {
    uint8_t number;
    ext_free free;
    size_t used;
    ext_counts counts;
} ext_all_answer;

typedef struct {
    uint8_t number;
    uint16_t free;
    ext_saved_time last_chain_time;
    size_t pops, used;
    ext_counts counts;
} ext_range_answer;

typedef struct {
    uint8_t number;
    uint32_t values[EXT_PARTITIONS];
    bool present[EXT_PARTITIONS];
} ext_by_partitions;

typedef struct { uint8_t number; bool present[EXT_PARTITIONS]; } ext_partition_ids;

typedef struct { uint8_t number; ext_range range; } ext_next_range;

/* ---- the cache */
ext_transaction ext_new_transaction(void);
uint8_t ext_open(ext_transaction *t, const uint8_t *tables, size_t tables_len, const uint8_t *area, size_t area_len);
uint8_t ext_commit(ext_transaction *t, const uint8_t *tables, size_t tables_len, const uint8_t *area, size_t area_len);
uint8_t ext_rollback(ext_transaction *t, const uint8_t *tables, size_t tables_len, const uint8_t *area, size_t area_len);
uint8_t ext_close(ext_transaction *t, const uint8_t *tables, size_t tables_len, const uint8_t *area, size_t area_len);
uint8_t ext_clear(ext_transaction *t, const uint8_t *tables, size_t tables_len, const uint8_t *area, size_t area_len);
ext_anchor_shown ext_pop_front(ext_transaction *t, const uint8_t *tables, size_t tables_len, const uint8_t *area, size_t area_len);
ext_info_shown ext_remove_last_imported_above(ext_transaction *t, const uint8_t *tables, size_t tables_len, const uint8_t *area, size_t area_len, ext_chain_time ct);
/* `messages`: 33 bytes each. */
uint8_t ext_add(ext_transaction *t, uint8_t *tables, size_t tables_len, uint8_t *area, size_t area_len, ext_anchor anchor, uint32_t our_exts_count, const uint8_t *messages, size_t messages_len);
uint8_t ext_add_imported_anchor_info(ext_transaction *t, uint8_t *tables, size_t tables_len, const uint8_t *area, size_t area_len, ext_history_entry entry);
ext_info_shown ext_last_imported_anchor_info(const uint8_t *tables, size_t tables_len, ext_transaction t);
ext_info_shown ext_last_imported_anchor_info_at_ct(const uint8_t *tables, size_t tables_len, ext_transaction t, ext_chain_time ct);
ext_anchor_shown ext_get(const uint8_t *tables, size_t tables_len, ext_transaction t, size_t index);
ext_flag ext_cache_has_pending_externals(const uint8_t *tables, size_t tables_len, ext_transaction t);
ext_flag ext_check_has_pending_externals_in_range(const uint8_t *tables, size_t tables_len, ext_transaction t, ext_key up_to);

/* ---- whose a message is (what the host counts as ours), and its partition */
ext_flag ext_contains_message(ext_shard shard, const uint8_t *message, size_t message_len);
uint8_t ext_check_routes(const uint8_t *routes, size_t routes_len);
ext_partition_shown ext_get_partition(const uint8_t *routes, size_t routes_len, const uint8_t *message, size_t message_len);

/* ---- the reader. The host fills in the reader and the state that it goes on from, and `ext_new_reader` makes it ready. */
uint8_t ext_new_reader(ext_reader *reader);
uint8_t ext_set_buffer_limits_by_partition(ext_reader *reader, ext_buffer_limits limits);
uint8_t ext_reset_read_state(ext_reader *reader);
uint8_t ext_drop_last_read_to_anchor_chain_time(ext_reader *reader);
ext_partition_ids ext_get_partition_ids(ext_reader reader);
ext_next_range ext_create_next_externals_range_state(ext_reader reader);

/* ---- the reads. `refill`: the mode Refill, else Continue. */
ext_all_answer ext_read_into_buffers(ext_externals *e, uint8_t *out, size_t out_len, const uint8_t *tables, size_t tables_len, const uint8_t *area, size_t area_len, const uint8_t *routes, size_t routes_len, bool refill);
ext_range_answer ext_read_externals_into_buffers(ext_range_and_cache *e, uint8_t *out, size_t out_len, const uint8_t *tables, size_t tables_len, const uint8_t *area, size_t area_len, const uint8_t *routes, size_t routes_len, ext_range_settings settings);
/* The free places of a range as it stands. */
ext_free_answer ext_get_max_buffers_fill_state(ext_buffer_limits limits, ext_range range);

/* ---- offsets, and the questions about buffers and ranges */
uint8_t ext_finalize(ext_reader *reader);
uint8_t ext_retain_only_last_range_state(ext_reader *reader);
uint8_t ext_set_from_to_current_position_in_last_range_state(ext_reader *reader);
uint8_t ext_increment_curr_processed_offset(ext_reader *reader, uint8_t par_id);
uint8_t ext_drop_processing_offset(ext_reader *reader, uint8_t par_id, bool drop_skip_offset);
uint8_t ext_set_skip_processed_offset_to_current(ext_reader *reader, uint8_t par_id);
uint8_t ext_set_processed_to_current_position(ext_reader *reader, uint8_t par_id);
/* The host's report: how many messages it took of a range's partition. */
uint8_t ext_messages_taken(ext_reader *reader, uint32_t seqno, uint8_t par_id, uint32_t taken);
ext_flag ext_open_ranges_limit_reached(ext_reader reader);
ext_flag ext_has_non_zero_processed_offset(ext_reader reader);
ext_flag ext_last_range_offset_reached(ext_reader reader, uint8_t par_id);
ext_flag ext_last_range_offsets_reached_in_all_partitions(ext_reader reader);
ext_by_partitions ext_count_messages_in_buffers_by_partitions(ext_reader reader);
ext_flag ext_has_messages_in_buffers(ext_reader reader);
ext_flag ext_has_not_fully_read_ranges(ext_reader reader);
ext_flag ext_all_ranges_read_and_collected(ext_reader reader);
ext_flag ext_check_all_ranges_read_and_collected(ext_reader reader);
ext_flag ext_all_read_externals_collected(ext_reader reader);
ext_by_partitions ext_get_last_range_state_offsets_by_partitions(ext_reader reader);
ext_flag ext_has_pending_externals(const uint8_t *tables, size_t tables_len, ext_transaction t, ext_reader reader);

#ifdef __cplusplus
}
#endif

#endif
