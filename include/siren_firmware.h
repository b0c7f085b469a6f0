/* What the controllers' firmware calls: the check of one lent block of a table of groups, and the mark of one site.
 *
 * Both functions are proved to give the answers written here, for every argument. Link libfirmware.a (x86-64): lib/libfirmware.a of a release, or
 * outside/build/libfirmware.a, which `outside/archives firmware` makes of the crate firmware_c. They keep no memory between calls, write none, use no
 * heap and always return.
 *
 * Stack, on x86-64, for everything below the call:
 *
 *   siren_block_check   8 bytes, the return address; the function itself takes none, and keeps no copy of the block
 *   siren_site_mark     8 bytes, the same
 *
 * Neither calls anything else, in the archive or outside it. outside/firmware/run measures this, on painted memory and by the compiler's frames, and refuses
 * more than 256 bytes for either. A controller that makes both calls (outside/firmware/example.c) is measured there too.
 */
#ifndef SIREN_FIRMWARE_H
#define SIREN_FIRMWARE_H

#include <stddef.h>
#include <stdint.h>

#ifdef __cplusplus
extern "C" {
#endif

/* The check of one lent block. `block` points to `length` bytes that the call may read and does not change.
 *
 *   0   the block has 512 bytes and its check is right
 *   1   the block does not have 512 bytes
 *   2   the block's check differs: bytes 504 to 507 or 508 to 511 do not hold the sums of the first 126 four-byte words
 *
 * The length is tested first, and no byte is read unless it is 512: with any other length `block` may be any pointer, and with length 0 it may
 * be null. The block needs no alignment. Header, slices and filler are not looked at: a block of 512 zero bytes answers 0.
 */
uint8_t siren_block_check(const uint8_t *block, size_t length);

/* The mark of one site for the siren register, from the two masks of confirmed sites, bit v for site v.
 *
 *   1   drill: the site has confirmed drill and has not confirmed live
 *   0   live: everything else
 *  11   there is no such site: `site` is above 63
 */
uint8_t siren_site_mark(uint64_t site, uint64_t confirmed_drill, uint64_t confirmed_live);

#ifdef __cplusplus
}
#endif

#endif
