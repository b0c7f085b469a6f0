/* Every public call of the siren library for C and C++ (and, through its C interface, for Rust): the check of a table of groups, reading and writing
 * it on file, the set questions, the step and the run of a vote, and the journal of its calls on file. The two calls of the controllers' firmware are in
 * siren_firmware.h.
 *
 * Every function here is proved to give the answers written here, for every argument. Link libcapi.a (x86-64): lib/libcapi.a of a release, or
 * outside/build/libcapi.a, which `outside/archives capi` makes of the crate capi_c. The functions keep no memory between calls, use no heap, call
 * nothing outside the archive but memcpy and memset, and always return. They may be called from several threads at once.
 *
 * Answer.    Each function answers the number of the refusal, 0 if there is none. docs/LEAFLET.md has each number in plain words.
 * out        points to four numbers, which every call writes whole, whatever they held: out[0] is the place of the refusal (the block or site for the
 *            numbers 2 to 6, 8 and 20 to 22, else 0), then come the values named at each call. Values that a call does not have are 0, and on a refusal all
 *            are. A fault in a block, of a table as of a journal, carries the block's number: its place in the file, counted from 0.
 * Lengths    are counts of elements and not of bytes: of 64-bit numbers where the pointer is to uint64_t, of bytes where it is to uint8_t, of records
 *            where it is to siren_call. With length 0 the pointer may be null. `out` may not be null.
 * Memory.    A call writes to `out` and to the cells named at it, and to nothing else. On a refusal it writes to `out` alone. Room beyond the named cells
 *            is kept as it was. What is lent as const is read and not changed.
 * Overlap.   What a call may write (out, room, state, answers) may not overlap anything else that is lent to the same call.
 * Stack.     siren_largest, siren_sound and siren_step use less than 1,536 bytes of it, siren_shared and siren_run less than 10,240, siren_intact less
 *            than 11,264, siren_run_records, which packs its list there, less than 26,624.
 *            The calls over a table of thresholds, which load it there, use less than 45,056, but siren_threshold_run_records less than 60,416 and
 *            siren_threshold_check, which loads nothing, less than 1,024, as every other call. Measured by outside/capi/test.c, which refuses more.
 *
 * A table of n sites (1 to 64, numbered from 0) is 63 n numbers: for each site the count of its slices, 1 to 62, then 62 places that hold the slices in
 * ascending order, unused ones zero. A slice and any other set of sites is a mask, bit v for site v. Every slice contains its owner and names no site at
 * or above n. Every call that takes a table checks it first and refuses it with
 *
 *    1   the length is not 63 times 1 to 64
 *   then site by site, with the site as the place:
 *    4   the site's slice count is 0 or over 62
 *    5   a slice lacks its owner or names a site at or above n     (each slice 5, then 6)
 *    6   a slice is not above the one before
 *    8   an unused place is not zero
 *
 * Below these are called "the refusals of a table". Refusals are listed in the order in which they are tried: the first that holds is given.
 */
#ifndef SIREN_H
#define SIREN_H

#include <stddef.h>
#include <stdint.h>

#ifdef __cplusplus
extern "C" {
#endif

/* ---- Tables */

/* The check of a table in memory. `table` points to `length` numbers.
 * Values: none. Refusals: those of a table.
 */
uint64_t siren_table_check(const uint64_t *table, size_t length, uint64_t out[4]);

/* Reads a table on file. `image` points to `length` bytes, n blocks of 512 bytes; `room` to `room_length` numbers.
 * Values: out[1] is n. The first 63 n numbers of the room then hold the table.
 *
 *    1   the length is 0, not a multiple of 512, or over 32,768
 *    9   the room has fewer than 63 n numbers
 *   then block by block, with the block as the place:
 *    2   the block's check differs
 *    3   the site is not the block's place, n is not the number of blocks, or bytes 6 and 7 are not zero
 *    4   the slice count is 0 or over 62
 *    5   a slice lacks its owner or names a site at or above n     (each slice 5, then 6)
 *    6   a slice is not above the one before
 *    8   the filler is not zero
 *   then:
 *    7   the table holds no quorum (it is proved that this cannot be)
 *
 * The image needs no alignment.
 */
uint64_t siren_image_read(const uint8_t *image, size_t length, uint64_t *room, size_t room_length, uint64_t out[4]);

/* Writes a table as an image. `table` points to `length` numbers, `room` to `room_length` bytes.
 * Values: out[1] is n. The first 512 n bytes of the room then hold the image.
 *
 *    1   the table's length is not 63 times 1 to 64
 *    9   the room has fewer than 512 n bytes
 *   then the other refusals of a table
 *
 * The room needs no alignment.
 */
uint64_t siren_image_write(const uint64_t *table, size_t length, uint8_t *room, size_t room_length, uint64_t out[4]);

/* ---- Set questions */

/* Is the set a quorum: not empty, and every member has some slice inside the set?
 * Values: out[1] is 1 if it is, 0 if not.
 * Refusals: those of a table; then 10, the set names a site at or above n.
 */
uint64_t siren_quorum(const uint64_t *table, size_t length, uint64_t set, uint64_t out[4]);

/* The largest quorum inside the set. Each round drops, all together, the members with no slice inside what is left.
 * Values: out[1] is the set that is left, 0 if none; out[2] is the number of rounds that dropped somebody.
 * Refusals: those of a table; then 10, the set names a site at or above n.
 */
uint64_t siren_largest(const uint64_t *table, size_t length, uint64_t set, uint64_t out[4]);

/* Does the set block the site: do its members, the site itself not counted, meet every slice of the site? Then their accepts alone make the site accept. A
 * site with a slice of itself alone is blocked by nobody.
 * Values: out[1] is 1 if it does, 0 if not.
 * Refusals: those of a table; then 10, the set names a site at or above n; then 11, the site is at or above n. Both are asked of the set as it is handed over.
 */
uint64_t siren_blocks(const uint64_t *table, size_t length, uint64_t set, uint64_t site, uint64_t out[4]);

/* Do every two quorums have a common site?
 * Values: out[1] is 1 if they do. If not, out[1] is 0, out[2] the quorum with the smallest mask that has a quorum in its complement, and out[3] the
 * largest quorum in that complement.
 * Refusals: those of a table; then 16, n is over 12.
 */
uint64_t siren_shared(const uint64_t *table, size_t length, uint64_t out[4]);

/* Which sites are intact when those of the set `faulty` are faulty?
 * Values: out[1] is the set of intact sites. All others are befouled.
 * Refusals: those of a table; then 10, the set names a site at or above n; then 16, n is over 12.
 */
uint64_t siren_intact(const uint64_t *table, size_t length, uint64_t faulty, uint64_t out[4]);

/* ---- The voting
 *
 * The state of a vote is 4 n + 6 numbers: for each site the sites that it heard a vote for drill from, a vote for live, an accept for drill, an accept
 * for live; then the masks of the sites that voted drill, voted live, accepted drill, accepted live, confirmed drill, confirmed live. The fresh state is
 * all zero. A call has four bytes: its kind (0 propose, 1 vote, 2 accept), from, to, and its side (0 drill, 1 live).
 */

/* One call of a list, as a record of four bytes. */
typedef struct {
    uint8_t kind;
    uint8_t from;
    uint8_t to;
    uint8_t side;
} siren_call;

/* Is the state one that the rules explain, when those of the set `faulty` are faulty? `state` points to `state_length` numbers.
 * Values: none. The answer 0 says that it is.
 *
 *   the refusals of a table
 *   10   the faulty set names a site at or above n
 *   18   the state is unsound: its length is not 4 n + 6, or something in it does not follow from what the sites heard
 */
uint64_t siren_sound(const uint64_t *table, size_t length, uint64_t faulty, const uint64_t *state, size_t state_length, uint64_t out[4]);

/* One call on a state. `state` points to `state_length` numbers.
 * Values: none. The answer 0 says that the call was taken; the numbers of the state then are what the rules say.
 *
 *   the refusals of a table
 *   10   the faulty set names a site at or above n
 *   18   the state is unsound
 *   11   from or to is at or above n, the kind is over 2, or the side over 1
 *   13   a proposal whose from and to differ
 *   12   the receiver is faulty
 *   14   the site has voted for the other side
 *   15   a correct sender has not sent this
 */
uint64_t siren_step(const uint64_t *table, size_t length, uint64_t faulty, uint64_t *state, size_t state_length, uint8_t kind, uint8_t from, uint8_t to,
                    uint8_t side, uint64_t out[4]);

/* The run of a list of calls from a fresh state, in passes from first to last until a pass changes nothing. `calls` points to `calls_length` bytes, four
 * a call in the order kind, from, to, side; `state` to `state_length` numbers, `answers` to `answers_length` bytes. What the two rooms hold before is not
 * read.
 * Values: out[1] is the number of passes, the last one counted. The first 4 n + 6 numbers of the state room then hold the state, and the first bytes of
 * the answer room, one a call, the answer of each call in the last pass: 0 if it was taken, or the number of its refusal (11 to 15, as in siren_step).
 *
 *   the refusals of a table
 *   10   the faulty set names a site at or above n
 *   17   the list's length is not a multiple of 4, or over 16,384 bytes
 *    9   the state room has fewer than 4 n + 6 numbers, or the answer room fewer bytes than there are calls
 */
uint64_t siren_run(const uint64_t *table, size_t length, uint64_t faulty, const uint8_t *calls, size_t calls_length, uint64_t *state, size_t state_length,
                   uint8_t *answers, size_t answers_length, uint64_t out[4]);

/* The same run of a list of records, with equal answers: `calls` points to `count` records. Refusal 17 is for a list of more than 4,096 calls; all else is
 * as in siren_run.
 */
uint64_t siren_run_records(const uint64_t *table, size_t length, uint64_t faulty, const siren_call *calls, size_t count, uint64_t *state,
                           size_t state_length, uint8_t *answers, size_t answers_length, uint64_t out[4]);

/* ---- Tables of thresholds
 *
 * An owner may say "three of these five" in place of a list of slices. A table of n sites (1 to 64) is then its image on file, n blocks of 512 bytes: bytes 0
 * and 1 are the site, 2 and 3 n, 4 and 5 the number of its sets, 1 to 49, 6 and 7 zero; then come the sets, ten bytes each, in preorder, the root first:
 * threshold, number of inner sets, mask of plain sites; zeros up to byte 503, and the check of a table's block. A set is met by the sites present if its
 * plain sites that are present and its inner sets that are met together reach the threshold. A site has a slice inside a set of sites if the set contains
 * the site and meets its root: all such sets are its slices. Every call below checks the image first and refuses it with
 *
 *    1   the length is 0, not a multiple of 512, or over 32,768
 *   then block by block, with the block as the place:
 *    2   the block's check differs
 *    3   the site is not the block's place, n is not the number of blocks, or bytes 6 and 7 are not zero
 *    4   the number of sets is 0 or over 49
 *    5   a set names a site at or above n                                            (each set 5, then 21, then 22)
 *   21   a set's threshold is zero, or above its plain sites and inner sets together
 *   22   a set stands behind the root and all that is in it, or deeper than four levels
 *   22   inner sets are missing at the end
 *    8   the filler is not zero
 *
 * Below these are called "the refusals of an image". Nothing in the bytes says which form a file has: an image of one form that is handed to a call of the
 * other is refused, or taken for another table. Images need no alignment. `image` points to `length` bytes; all else, values, memory and the refusals behind
 * those of the table, is as in the call of the same name for a table in memory.
 */

/* The check of an image. Values: none. Refusals: those of an image. */
uint64_t siren_threshold_check(const uint8_t *image, size_t length, uint64_t out[4]);

/* As siren_quorum, siren_largest, siren_blocks, siren_shared and siren_intact. */
uint64_t siren_threshold_quorum(const uint8_t *image, size_t length, uint64_t set, uint64_t out[4]);
uint64_t siren_threshold_largest(const uint8_t *image, size_t length, uint64_t set, uint64_t out[4]);
uint64_t siren_threshold_blocks(const uint8_t *image, size_t length, uint64_t set, uint64_t site, uint64_t out[4]);
uint64_t siren_threshold_shared(const uint8_t *image, size_t length, uint64_t out[4]);
uint64_t siren_threshold_intact(const uint8_t *image, size_t length, uint64_t faulty, uint64_t out[4]);

/* As siren_sound, siren_step, siren_run and siren_run_records. */
uint64_t siren_threshold_sound(const uint8_t *image, size_t length, uint64_t faulty, const uint64_t *state, size_t state_length, uint64_t out[4]);
uint64_t siren_threshold_step(const uint8_t *image, size_t length, uint64_t faulty, uint64_t *state, size_t state_length, uint8_t kind, uint8_t from,
                              uint8_t to, uint8_t side, uint64_t out[4]);
uint64_t siren_threshold_run(const uint8_t *image, size_t length, uint64_t faulty, const uint8_t *calls, size_t calls_length, uint64_t *state,
                             size_t state_length, uint8_t *answers, size_t answers_length, uint64_t out[4]);
uint64_t siren_threshold_run_records(const uint8_t *image, size_t length, uint64_t faulty, const siren_call *calls, size_t count, uint64_t *state,
                                     size_t state_length, uint8_t *answers, size_t answers_length, uint64_t out[4]);

/* ---- The journal
 *
 * A journal keeps a list of calls on file as it was collected, in blocks of 512 bytes: bytes 0 and 1 are the block's number from 0, 2 and 3 the count of
 * its calls, then come up to 125 calls of four bytes (kind, from, to, side), zeros up to byte 503, and the check of a table's block. Every block but the
 * last holds 125 calls, the last 1 to 125. The empty list is the empty file. The bytes of the calls are not judged: a call that a run refuses is kept
 * like any other. Reading what was written gives the list, and writing what was read gives the bytes. Every call that reads a journal checks it whole
 * first and refuses it with
 *
 *   19   the length is not a multiple of 512, or over 16,896
 *   then block by block, with the block as the place:
 *    2   the block's check differs
 *   20   the number is not the block's place in the file, the count is 0 or over 125, or a block but the last has under 125
 *    8   a byte behind the last call, up to byte 503, is not zero
 *   then:
 *   17   the journal has more than 4,096 calls
 *
 * Below these are called "the refusals of a journal". Neither journals nor lists need alignment.
 */

/* The check of a journal. `journal` points to `length` bytes.
 * Values: out[1] is the number of blocks, out[2] the number of calls.
 * Refusals: those of a journal.
 */
uint64_t siren_journal_check(const uint8_t *journal, size_t length, uint64_t out[4]);

/* Writes a list of calls as a journal. `calls` points to `calls_length` bytes, four a call; `room` to `room_length` bytes.
 * Values: out[1] is the number of blocks. The first 512 bytes of the room for each of them then hold the journal.
 *
 *   17   the list's length is not a multiple of 4, or over 16,384 bytes
 *    9   the room has fewer than 512 bytes a block
 */
uint64_t siren_journal_write(const uint8_t *calls, size_t calls_length, uint8_t *room, size_t room_length, uint64_t out[4]);

/* Reads a journal into the list that siren_run takes. `journal` points to `length` bytes, `room` to `room_length` bytes.
 * Values: out[1] is the length of the list in bytes, four a call. The first out[1] bytes of the room then hold the list.
 * Refusals: those of a journal; then 9, the room has fewer bytes than the list.
 */
uint64_t siren_journal_list(const uint8_t *journal, size_t length, uint8_t *room, size_t room_length, uint64_t out[4]);

/* Reads one call of a journal. `journal` points to `length` bytes; `place` counts calls from 0.
 * Values: if there is a call at the place, out[1] is 1, out[2] the call's four bytes as a little-endian number (the kind is its lowest byte), and out[3]
 * the place of the next. If none is left, out[1], out[2] and out[3] are 0: so it is at every place at or beyond the number of calls.
 * Refusals: those of a journal. It is checked whole at each call of this function: siren_journal_list does so once.
 */
uint64_t siren_journal_next(const uint8_t *journal, size_t length, uint64_t place, uint64_t out[4]);

#ifdef __cplusplus
}
#endif

#endif
