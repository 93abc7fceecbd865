/* The reading core of NTFS for C. Every function is proved: whatever bytes and numbers come in, it ends, stays inside what it was lent
 * (each pointer must be good for as many elements as the length beside it says; it may be null where that is 0), and answers what the
 * definitions in crates/format/specs say. What is lent to one call must not overlap, and words must stand where a uint64_t may.
 *
 * Each call answers a number: 0 accepted, otherwise the refusal's number (1 to 22, those that its comment names); 255 where `out` or
 * `reader` is too short, and then nothing was changed. `out` must have ARCHTHIMBLE_OUT words or more. Accepted, it holds what the call's
 * comment says, the rest of the eight words 0; refused, the refusal's values in the order of the table in README.md (a negative one in
 * two's complement), the rest of the eight 0.
 * Words behind the eighth keep their values.
 *
 * A reader is ARCHTHIMBLE_READER words or more: cluster size, cursor, previous LCN, current run (0 none, 1 on the disk, 2 a hole), that
 * run's size, its place, displacement, place in the stream, data size, and seven to spare, which the library sets to 0. A refused call
 * leaves it as it was. Words of any other origin are read as they stand (a kind over 2 as a hole, whose place says nothing), and refused
 * with 21 where they are unsound: the cluster size is no power of two from 512 to 2,097,152, the cursor lies past the list, the
 * displacement is over the run's size, or isn't 0 without a run, or a disk run's place + size is over 2^64 - 1. */
#ifndef ARCHTHIMBLE_H
#define ARCHTHIMBLE_H
#include <stddef.h>
#include <stdint.h>

#define ARCHTHIMBLE_OUT 8
#define ARCHTHIMBLE_READER 16
#define ARCHTHIMBLE_SHORT 255

/* where a seek counts from; any other number is the end */
#define ARCHTHIMBLE_FROM_START 0
#define ARCHTHIMBLE_FROM_PLACE 1
#define ARCHTHIMBLE_FROM_END 2

#ifdef __cplusplus
extern "C" {
#endif

/* out: 1 and the sum, or 0 where it is below 0 or over 2^64 - 1. Never refused. */
uint64_t archthimble_lcn_plus(uint64_t lcn, int64_t delta, uint64_t *out, size_t out_len);

/* out: 1 and the byte position, or 0 where it is over 2^64 - 1. Any cluster size will do; never refused. */
uint64_t archthimble_lcn_position(uint64_t lcn, uint64_t cluster, uint64_t *out, size_t out_len);

/* out: sector size, cluster size, total sectors, MFT LCN, MFT mirror LCN, file record size, index record info (in two's complement), serial.
 * Refusals 1 to 7. */
uint64_t archthimble_geometry(const uint8_t *sector, size_t sector_len, uint64_t *out, size_t out_len);

/* Repairs the record in place. Refusals 8 to 12: 12 leaves the sectors before the torn one repaired, the others leave the record as it was. */
uint64_t archthimble_repair(uint8_t *record, size_t record_len, uint64_t *out, size_t out_len);

/* out: 1, size, position (0 for a hole), kind (1 disk, 0 hole), cursor and LCN behind the run; or 0 where the list is over.
 * Refusals 13 to 19; 21 for the cluster size, or where `at` lies past the list. */
uint64_t archthimble_next_run(const uint8_t *list, size_t list_len, uint64_t cluster, uint64_t at, uint64_t lcn, uint64_t *out, size_t out_len);

/* out: 1 and the position on the disk; 2 for a hole; 0 where no run covers the offset. Refusals 13 to 19; 21 for the cluster size; 22. */
uint64_t archthimble_lookup(const uint8_t *list, size_t list_len, uint64_t cluster, uint64_t offset, uint64_t *out, size_t out_len);

/* A reader at the start of a stream of `size` bytes; what stood in its words doesn't matter. Refusals 13 to 19; 21 for the cluster size. */
uint64_t archthimble_open(const uint8_t *list, size_t list_len, uint64_t cluster, uint64_t size, uint64_t *reader, size_t reader_len, uint64_t *out, size_t out_len);

/* By an unsigned number, and by a signed one. Refusals 13 to 19, 20, 21. */
uint64_t archthimble_seek(const uint8_t *list, size_t list_len, uint64_t *reader, size_t reader_len, uint64_t from, uint64_t by, uint64_t *out, size_t out_len);
uint64_t archthimble_seek_signed(const uint8_t *list, size_t list_len, uint64_t *reader, size_t reader_len, uint64_t from, int64_t by, uint64_t *out, size_t out_len);

/* out: span count, byte count. store: position (0 for a hole), length, kind (1 disk, 0 hole) of each span; the rest of it as it was.
 * The store may have any length: there is a span for each three words at most. Refusals 13 to 19, 21. */
uint64_t archthimble_read(const uint8_t *list, size_t list_len, uint64_t *reader, size_t reader_len, uint64_t w, uint64_t *store, size_t store_len, uint64_t *out, size_t out_len);

/* out: 1 and the position, or 0 in a hole or without a run. Refusal 21, on all but the cursor, since no list is lent. */
uint64_t archthimble_data_position(const uint64_t *reader, size_t reader_len, uint64_t *out, size_t out_len);

#ifdef __cplusplus
}
#endif
#endif
