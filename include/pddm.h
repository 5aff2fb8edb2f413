/* pddm.h: the PD-DM block mapper, proved. Document 01 gives the rules; docs/MANUAL.md what the numbers mean.
 *
 * A drive is one run of bytes that the caller lends to every call; the mapper keeps no state of its own and allocates
 * nothing. Every call ends on every input. A call that is refused changes neither disk nor list.
 *
 * What the caller sees to:
 *  - disk, list and line overlap no other argument of the same call;
 *  - a pointer may be null only where its length is 0, and points to that many elements otherwise;
 *  - a block shown by a find is copied out before the drive is written;
 *  - nobody else writes the drive during a call.
 *
 * A write stores every block that it lists, whole and in order, also one whose bytes do not change; to another medium
 * the caller carries the listed blocks, all of them, in order. Bytes and list are proved; that each store is really made,
 * where a compiler could leave out one that changes no byte, is tested on the archive (bench, program touched).
 *
 * The archive: x86-64, ELF, System V calls, SSE2. It wants memcpy and memset from the linker and nothing else, has no
 * data of its own and makes no system call. list and line are aligned to 4 bytes, no other pointer needs to be. Stack of a
 * call: under 12 KiB (the tree check, height 4), of a write under 6 KiB, of the calls with a line under 10 KiB. A write can
 * take publics + 1 rounds in one call: docs/MANUAL.md says how a caller keeps writes short, and how blocks get from memory
 * to another medium.
 *
 * Refusals: 1 bad geometry or under 24 bytes, 2 wrong length, 3 head outside, 4 public number outside, 5 public data or
 * blank not one block, 6 bad map entry, 7 every slot allocated, 8 too few random bytes, 9 list too short, 10 hidden number
 * outside, 11 hidden data or blank not one block, or the place of an offer not wholly among the lent blocks, 12 damaged
 * tree; by the tree check, 13 ill-formed entry, 14 entry past the hidden numbers, 15 slot that is not its owner's; by
 * entering an offer, 16 a seventeenth number or no room in the lent line; by recovery, 17 a map entry that is no slot's
 * public block or that two numbers share. 0: not refused.
 */
#ifndef PDDM_H
#define PDDM_H

#include <stdbool.h>
#include <stddef.h>
#include <stdint.h>

#ifdef __cplusplus
extern "C" {
#endif

/* Writes an empty drive: header, public map, bitmap and root. The data area stays as it was: fill it with random bytes
 * first. Answers 0, or refusal 1 or 2 for this geometry; refused, no byte is changed.
 * block_size: bytes a block, a power of two from 32 to 4,096; height: levels of the hidden tree, 2 to 4;
 * publics, hidden: blocks of the two volumes; slots: more than either. */
uint32_t pddm_format(uint8_t *disk, size_t disk_len, uint32_t block_size, uint32_t height, uint32_t publics,
                     uint32_t hidden, uint32_t slots);

typedef struct {
    uint32_t answer, blocks;
    uint64_t bytes; /* blocks x block_size; both are 0 where answer is not 0 */
} pddm_size;

/* How large a drive of this geometry is: 0 and its size in blocks and in bytes, or refusal 1. A disk of that many bytes is
 * what pddm_format takes for the geometry, and no other length. */
pddm_size pddm_drive_size(uint32_t block_size, uint32_t height, uint32_t publics, uint32_t hidden, uint32_t slots);

typedef struct {
    uint32_t answer, block_size, height, publics, hidden, slots; /* all but answer are 0 where answer is not 0 */
    uint32_t head;                                               /* the slot of the next round, below slots */
} pddm_drive;

/* Which drive this is: 0, its geometry and its head, or refusal 1 to 3. Only the header, the first 24 bytes, and disk_len
 * are looked at: the answer is public, and says nothing of the hidden volume but its size. */
pddm_drive pddm_identify(const uint8_t *disk, size_t disk_len);

#define PDDM_REFUSED 0 /* answer says why */
#define PDDM_BLANK 1   /* never placed: the caller's blank block */
#define PDDM_BLOCK 2   /* the block at address, counted in blocks from the disk's start */

typedef struct {
    uint32_t answer, kind, address; /* address is 0 where kind is neither PDDM_BLOCK nor PDDM_LENT */
} pddm_found;

/* Finds the block of a public number. Refusals 1 to 6. */
pddm_found pddm_public_find(const uint8_t *disk, size_t disk_len, uint32_t number, const uint8_t *blank,
                            size_t blank_len);

/* Finds the block of a hidden number. Refusals 1 to 3, 10 to 12. */
pddm_found pddm_hidden_find(const uint8_t *disk, size_t disk_len, uint32_t number, const uint8_t *blank,
                            size_t blank_len);

#define PDDM_NONE 0      /* nothing was offered */
#define PDDM_PLACED 1    /* the hidden block is on the drive */
#define PDDM_WAITING 2   /* not yet: offer it again with a later write */
#define PDDM_NOT_TRIED 3 /* the write was refused */
                         /* or 10, 11: the offer is bad; 12: the tree is damaged */

typedef struct {
    uint32_t answer, rounds, stores, outcome; /* stores: how many entries of the list were written */
} pddm_written;

/* Writes one public block and, if offered, tries to carry one hidden block along. Refusals 1 to 9; a bad offer never
 * refuses the write. random: fresh random bytes, rounds x height x block_size of them (pddm_write_needs says how many);
 * list: takes the disk address of every block stored, in order. hidden and hidden_number are not looked at unless offered. */
pddm_written pddm_write(uint8_t *disk, size_t disk_len, uint32_t number, const uint8_t *data, size_t data_len,
                        bool offered, uint32_t hidden_number, const uint8_t *hidden, size_t hidden_len,
                        const uint8_t *random, size_t random_len, uint32_t *list, size_t list_len);

/* A line of waiting offers is the owner's: up to 16 hidden blocks that the writes to come carry along. The caller lends it
 * as an array of line_len offers, of which the first `waiting` wait; at most 16 of them, and what is lent, are looked at.
 * Places speak of the blocks lent with the same call. Nothing is copied when an offer enters: keep its block where it is
 * until it is placed. On a drive where 10 or 11 meets an offer it is passed over and keeps its turn. */
typedef struct {
    uint32_t number, place; /* place: of its block among the lent blocks, counted in blocks */
} pddm_offer;

typedef struct {
    uint32_t answer, waiting; /* waiting: how many offers of the line wait now */
} pddm_entered;

/* Enters an offer: at the end of the line, or in its number's place if that waits already. Refusals 1 to 3, 10, 11, 16;
 * refused, the line stays. */
pddm_entered pddm_enter(const uint8_t *disk, size_t disk_len, uint32_t number, uint32_t place, const uint8_t *blocks,
                        size_t blocks_len, pddm_offer *line, size_t line_len, uint32_t waiting);

typedef struct {
    uint32_t answer, rounds, stores, outcome, placed, waiting; /* placed: hidden numbers placed by this write */
} pddm_line_written;

/* Writes one public block and carries offers of the line along, the first first; a call of several rounds may place
 * several. Those that stay are moved to the front of the line, `waiting` of them; entries behind them keep their values.
 * Refusals 1 to 9; refused, the line stays. random and list as for pddm_write. The outcome is PDDM_PLACED if any was
 * placed, 12 if a round met damage, PDDM_WAITING if one that counts on this drive is left, else PDDM_NONE. */
pddm_line_written pddm_write_line(uint8_t *disk, size_t disk_len, uint32_t number, const uint8_t *data, size_t data_len,
                                  const uint8_t *blocks, size_t blocks_len, pddm_offer *line, size_t line_len,
                                  uint32_t waiting, const uint8_t *random, size_t random_len, uint32_t *list,
                                  size_t list_len);

#define PDDM_LENT 3 /* the block waits: address is its place among the lent blocks */

/* Finds the block of a hidden number where offers wait: the block of its first offer in the line, if that counts on this
 * drive, else as pddm_hidden_find. Refusals 1 to 3, 10, 11, and 12 where nothing waits under the number. */
pddm_found pddm_hidden_find_line(const uint8_t *disk, size_t disk_len, uint32_t number, const uint8_t *blank,
                                 size_t blank_len, const uint8_t *blocks, size_t blocks_len, const pddm_offer *line,
                                 size_t line_len, uint32_t waiting);

typedef struct {
    uint32_t answer, rounds, stores, random_blocks; /* random_blocks x block_size bytes; all 0 where answer is not 0 */
} pddm_needs;

/* What a good write of this number takes now: refusal 1 to 4, 6 or 7, or 0 and the buffers to lend. */
pddm_needs pddm_write_needs(const uint8_t *disk, size_t disk_len, uint32_t number);

typedef struct {
    uint32_t answer, rounds; /* rounds is 0 where answer is not 0 */
} pddm_wait;

/* In which round from now the first waiting offer is placed on a drive that passes the check, counted through the writes
 * to come: 0 and that round, from 1 to hidden + 1, or refusal 1 to 3. It is the owner's, as outcomes are: it tells of the
 * hidden volume, and is shown to nobody else. */
pddm_wait pddm_wait_rounds(const uint8_t *disk, size_t disk_len);

/* Checks the whole hidden tree, from the first root entry on; changes nothing. Answers 0 if it passes: then no later call
 * gives 12, and it still passes after each. Else refusal 1 to 3, or that of the first bad entry: 13 if it is no address of
 * its level, 14 if all hidden numbers below it are outside, 15 if its slot's owner is not below it or not found there. */
uint32_t pddm_check_tree(const uint8_t *disk, size_t disk_len);

/* Rebuilds the bitmap from the public map: a bit of it is 1 if it is that of a public number's block, and 0 otherwise; no
 * other block is changed. Answers 0, or refusal 1 to 3 or 17; refused, no byte is changed. Call it at plugging in, before any
 * other call: a plug pulled within a write leaves marks that do not fit the map, and then blocks are lost. A drive that needs
 * none stays as it is. Where the plug is pulled meanwhile, call it again. It tells an inspector nothing: it looks at what he
 * sees. */
uint32_t pddm_recover(uint8_t *disk, size_t disk_len);

typedef struct {
    uint32_t answer, stores, cut; /* stores: how many were made; cut: 1 where others were left out */
} pddm_cut;

/* For tests: pddm_write stopped after its first bound stores, as if the plug were pulled. It is refused as pddm_write is,
 * whatever the bound, and then makes no store and is not cut; with a bound of as many stores as it has it is pddm_write. */
pddm_cut pddm_write_cut(uint8_t *disk, size_t disk_len, uint32_t number, const uint8_t *data, size_t data_len,
                        bool offered, uint32_t hidden_number, const uint8_t *hidden, size_t hidden_len,
                        const uint8_t *random, size_t random_len, uint32_t *list, size_t list_len, size_t bound);

/* For tests: pddm_write_line likewise. The line is lent as its numbers and its places, of which the first `waiting` wait as
 * far as both go, at most 16, and is not handed back: after a plug is pulled the line that was lent is offered again. */
pddm_cut pddm_write_line_cut(uint8_t *disk, size_t disk_len, uint32_t number, const uint8_t *data, size_t data_len,
                             const uint8_t *blocks, size_t blocks_len, const uint32_t *numbers, size_t numbers_len,
                             const uint32_t *places, size_t places_len, uint32_t waiting, const uint8_t *random,
                             size_t random_len, uint32_t *list, size_t list_len, size_t bound);

#ifdef __cplusplus
}
#endif

#endif
