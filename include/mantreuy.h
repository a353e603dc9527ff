/*
 * mantreuy.h - a snapshot store on a card in memory
 *
 * A card is an area of N blocks of 512 bytes, N from 2 to 65,536, that the
 * caller lends. It holds one active volume of L logical blocks, L from 1 to
 * 14,336, and at most 255 snapshots of it. The calls format a card, read and
 * write a block or a span of bytes, give the visit that a block dates from, take
 * a snapshot, go back to one, list them, and check the card. Each call but a
 * format walks the chain of snapshots anew. N is not kept on the card: it is what
 * the length says that is given with the call. A longer area has more free
 * blocks; on one that ends before the last beta every call but a format is
 * refused, with 6 at the latest.
 * Link libmantreuy.a, which is built for Linux on x86-64; it needs at most
 * memcpy, memmove and memset.
 *
 * WORDS
 *
 * Blocks of the card are numbered from 0, and so are logical blocks of the
 * volume.
 *   - A descriptor is a block that describes the active volume or a snapshot.
 *     It has the layout, L, the name, the revision, and three block numbers:
 *     alpha, its own block; beta, the first block after its region; next, the
 *     descriptor that follows, 0 in the last.
 *   - Its region is the blocks from alpha on, up to beta and without it. The
 *     next region starts there, so that every block below the last beta is in
 *     one region. The blocks from beta of the active volume on are free.
 *   - The chain is the descriptors from block 0 along next: the snapshots,
 *     oldest first, then the active volume.
 *   - A table block has 128 entries, one for each logical block of a group. An
 *     entry is the number of a block of the card, or 0, which is nil. A volume
 *     has n groups, L divided by 128, rounded up.
 *   - In layout 1 the n table blocks stand after the descriptor. In layout 2 the
 *     descriptor has 112 entries of its own, Phi, that name the table blocks.
 *   - The opening cost c is the blocks that a region starts with, and so what a
 *     format and a snapshot take: 1 + n in layout 1, 1 in layout 2.
 *   - The revision, 0 or 1, is given with the format and is one for the whole
 *     card. It says what a revert does with the snapshot that it goes back to: on
 *     revision 0 the snapshot is gone afterwards, on revision 1 it stays.
 *   - The bytes of a descriptor: 0 to 3 `snap`, 4 to 7 the layout, 8 to 11 L,
 *     12 to 15 alpha, 16 to 19 beta, 20 to 23 next, 24 to 39 the name, 40 to 43
 *     the revision, 44 to 63 zero, 64 to 511 Phi in layout 2, and zero in layout
 *     1. Entry i of Phi stands at byte 64 + 4 * i, entry i of a table block at
 *     byte 4 * i. So layout, L and revision of a card stand in its block 0.
 *   - A descriptor is sound if bytes 0 to 3 are `snap` and the zero bytes are
 *     zero; layout, L, revision and name are ones that a format takes; its
 *     layout, L and revision are those of block 0; alpha is its own block;
 *     alpha + c <= beta <= N; next is 0, or equals beta with beta < N; no earlier
 *     descriptor has its name; and it is among the first 256.
 *   - An entry is in place if it is nil, or below beta of the descriptor
 *     through which it is found and neither a descriptor of the chain nor a
 *     layout 1 table block.
 *   - The active volume, and each snapshot, is also one run of 512 * L bytes:
 *     byte i of logical block l is byte 512 * l + i of the run. A span is the
 *     bytes of the run from an offset on, as many as a length says. It touches
 *     the logical blocks that have a byte of it: two or three where it is 700
 *     bytes long, none where its length is 0.
 *   - A logical block, of the active volume or of a snapshot, dates from the
 *     region that contains the block that its entry names. The visit that it
 *     dates from is the name of that region's descriptor: a snapshot's, or the
 *     active volume's own. Where its entry is nil, or that of its table block in
 *     Phi, there is none.
 *
 * ARGUMENTS
 *
 * A buffer is a pointer and then its length in bytes. A call takes any length
 * and any content, and answers with a refusal where they do not serve. The
 * buffer of a span may be of any length, 0 too, and its offset is any number of
 * 64 bits. `visit` has no length beside it: it is always 16 bytes.
 *   - No pointer may be null, even where the length is 0 or the buffer is not
 *     looked at, and it must point to as many bytes as the length says.
 *   - Buffers need no alignment. `place` is an ordinary uint32_t object.
 *   - The buffers of one call, `visit` and `place` must not overlap, even where
 *     both are only read.
 *   - What is only filled need not be set before the call: `out`, `records`,
 *     `visit`, *place, and `name` of mantreuy_pad_name.
 *   - No call keeps a pointer after it returns, allocates memory, waits, reads
 *     or sets a global variable, or calls back.
 *   - mantreuy_read, mantreuy_read_span, mantreuy_visit, mantreuy_list and
 *     mantreuy_check do not alter the card and may run at the same time on one
 *     card, each with its own `out`, `visit`, `records` and `place`. While
 *     mantreuy_ream, mantreuy_write, mantreuy_write_span, mantreuy_snap or
 *     mantreuy_revert runs, no other call may use that card. Nobody else may
 *     change a buffer while a call uses it, nor read one that the call may
 *     change.
 *   - A check and a span write use at most 72 KB of stack, any other call at
 *     most 5 KB. Measured on x86-64, of the library as an older kit of Rattle
 *     compiled it, on cards of 4,096 blocks, a check and a span write on 2,048
 *     too, in accepted and some refused calls: 67,072 bytes in a check, 67,984
 *     in a span write, 1,624 in any other call.
 *
 * SIZES
 *
 * A block is 512 bytes. A name is 16 bytes: 1 to 16 of the bytes a-z, 0-9, '.'
 * and '-', then zero bytes up to 16; mantreuy_pad_name makes one of a text. A
 * record of a listing is 28 bytes. A length of a name buffer other than 16 is
 * no name, and is answered like sixteen zeros: with 4, where a name is looked
 * at. Stored numbers are 32 bits, lowest byte first, whatever the machine.
 *
 * ANSWERS
 *
 * A call returns the number of its answer, and stores the place of the answer
 * in *place. Accepted is number 0, place 0. Any other number is a refusal, and
 * then no byte of the card or of another buffer is altered. *place is not such
 * a buffer: it is the second half of the answer, and every call stores it,
 * accepted or refused. So does mantreuy_visit store `visit`, which is a part of
 * its answer: sixteen zeros where it is refused. The place is 0 unless it is
 * stated below; it is the number of a block of the card. Where several refusals
 * apply, the one that stands first in the list of the call is given.
 *
 *    1  MANTREUY_BAD_AREA        the card's length is no multiple of 512, or N is
 *                                outside 2..65,536
 *    2  MANTREUY_BAD_LAYOUT      the layout is not 1 or 2
 *    3  MANTREUY_BAD_VOLUME      L is outside 1..14,336
 *    4  MANTREUY_BAD_NAME        the name given is no name
 *    5  MANTREUY_CARD_TOO_SMALL  the opening cost c is greater than N
 *    6  MANTREUY_UNSOUND_CHAIN   a descriptor of the chain is unsound; place: the
 *                                block of the first such one. A card that was
 *                                never formatted gives this, as a rule with
 *                                place 0
 *    7  MANTREUY_NO_SNAPSHOT     no snapshot has the name. The active volume's
 *                                own name is not the name of a snapshot
 *    8  MANTREUY_BAD_BLOCK       the logical block number is not below L
 *    9  MANTREUY_BAD_LENGTH      the block lent is not 512 bytes
 *   10  MANTREUY_BAD_ENTRY       an entry that the call follows is not in place
 *                                or, in a check, and in a span write, which makes
 *                                one, is against a rule of the check; place: the
 *                                block that holds the entry
 *   11  MANTREUY_NO_ROOM         beta of the active volume plus the blocks that
 *                                the call needs exceeds N
 *   12  MANTREUY_NAME_IN_USE     a snapshot or the active volume has the name
 *   13  MANTREUY_TOO_MANY        there are 255 snapshots already
 *   14  MANTREUY_SHORT_LIST      the list is shorter than the chain
 *   16  MANTREUY_PAST_END        offset plus length is past the volume's end,
 *                                512 * L
 *   17  MANTREUY_BAD_REVISION    the revision is not 0 or 1
 *
 * No other number is returned.
 *
 * WHAT CHANGES
 *
 * The card is memory; bringing it to a medium is the caller's part. An accepted
 * call alters no other blocks of the card than these:
 *   ream    blocks 0 to c - 1
 *   write   the block of the data; where it takes new blocks also the active
 *           descriptor and a table block. All of them are in the active region
 *           as it is after the call
 *   write_span
 *           those that a write of each block that it touches alters, one after
 *           the other; none where the length is 0
 *   snap    the active descriptor, and the c blocks from its beta on
 *   revert  on revision 0 the descriptor of the snapshot, the active one after
 *           the call; on revision 1 the c blocks from the snapshot's beta on
 * read, read_span, visit, list and check alter none. What is said here holds once
 * the call has returned. Of a card whose memory is lost or copied out in the
 * middle of a call, or of a medium that has got only some of these blocks,
 * nothing is promised; a span write may be there in part.
 */
#ifndef MANTREUY_H
#define MANTREUY_H

#include <stddef.h>
#include <stdint.h>

#ifdef __cplusplus
extern "C" {
#endif

#define MANTREUY_BLOCK_SIZE 512
#define MANTREUY_NAME_SIZE 16
#define MANTREUY_RECORD_SIZE 28

#define MANTREUY_FEWEST_BLOCKS 2   /* N */
#define MANTREUY_MOST_BLOCKS 65536 /* N; such a card has 33,554,432 bytes */
#define MANTREUY_MOST_VOLUME 14336 /* L */
#define MANTREUY_MOST_SNAPSHOTS 255
#define MANTREUY_MOST_RECORDS 256 /* the snapshots and the active volume */

#define MANTREUY_REVISION_0 0 /* a snapshot that a revert goes back to is gone */
#define MANTREUY_REVISION_1 1 /* it stays, and can be gone back to again */

/* the numbers of the answers */
enum {
	MANTREUY_ACCEPTED = 0,
	MANTREUY_BAD_AREA = 1,
	MANTREUY_BAD_LAYOUT = 2,
	MANTREUY_BAD_VOLUME = 3,
	MANTREUY_BAD_NAME = 4,
	MANTREUY_CARD_TOO_SMALL = 5,
	MANTREUY_UNSOUND_CHAIN = 6,
	MANTREUY_NO_SNAPSHOT = 7,
	MANTREUY_BAD_BLOCK = 8,
	MANTREUY_BAD_LENGTH = 9,
	MANTREUY_BAD_ENTRY = 10,
	MANTREUY_NO_ROOM = 11,
	MANTREUY_NAME_IN_USE = 12,
	MANTREUY_TOO_MANY = 13,
	MANTREUY_SHORT_LIST = 14,
	MANTREUY_PAST_END = 16,
	MANTREUY_BAD_REVISION = 17
};

/*
 * Formats the card: one active volume of `volume` logical blocks, every one of
 * which reads as zeros, and no snapshot. `name` becomes the active volume's own
 * name. Nothing of what the card held matters. Blocks from c on are not altered.
 * In layout 1 each snapshot has a whole table of n blocks, and a read or a write
 * follows one entry. In layout 2 a snapshot takes one block, table blocks are
 * made as writes need them, and a read or a write follows up to two entries.
 * `revision` is MANTREUY_REVISION_0 or MANTREUY_REVISION_1; the calls on the card
 * go by it from then on, and nothing but another format changes it.
 * The interface changed: `revision`, after `volume`, is new, and so is answer 17.
 * A caller that was written without it gives MANTREUY_REVISION_0 there, and its
 * cards are the same as before, byte for byte. Objects that were compiled with the
 * older header must be compiled anew, since the linker does not see the difference.
 *
 * Refusals, in this order: 1, 2, 3, 17, 4, 5 (c > N).
 */
uint32_t mantreuy_ream(uint8_t *card, size_t card_length, uint32_t layout, uint32_t volume,
                       uint32_t revision, const uint8_t *name, size_t name_length,
                       uint32_t *place);

/*
 * Reads logical block `block` into `out`, which must be 512 bytes long: of the
 * active volume where `snapshot` is 0; of the snapshot that has the name where
 * `snapshot` is any other number. Where it is 0 the name is not looked at: any
 * pointer that is not null will do, with length 0. A block that the volume or
 * the snapshot has no content for reads as zeros. The card is not altered.
 *
 * Refusals, in this order: 1; 4 (only where `snapshot` is not 0); 9; 6; 7 (only
 * where `snapshot` is not 0); 8; 10. `out` is then not altered.
 */
uint32_t mantreuy_read(const uint8_t *card, size_t card_length, uint32_t snapshot,
                       const uint8_t *name, size_t name_length, uint32_t block,
                       uint8_t *out, size_t out_length, uint32_t *place);

/*
 * Reads the span of out_length bytes from byte `offset` on into `out`, whatever
 * blocks it touches: of the active volume where `snapshot` is 0, and the name is
 * then not looked at; of the snapshot that has the name where `snapshot` is any
 * other number. Bytes of a block that the volume or the snapshot has no content
 * for read as zeros. The card is not altered. The chain is walked once, however
 * long the span is, and only entries of blocks that it touches are followed: no
 * check is made.
 *
 * Refusals, in this order: 1; 4 (only where `snapshot` is not 0); 6; 7 (only
 * where `snapshot` is not 0); 16; 10 (of the blocks touched, rising, the first
 * whose entry is not in place). No byte of `out` is then altered. 16 goes by the
 * sum of offset and length as numbers of any size: it does not wrap. A span that
 * ends where the volume ends is within it, and so is one of length 0 at that end.
 * A span of length 0 meets the same tests, but follows no entry.
 */
uint32_t mantreuy_read_span(const uint8_t *card, size_t card_length, uint32_t snapshot,
                            const uint8_t *name, size_t name_length, uint64_t offset,
                            uint8_t *out, size_t out_length, uint32_t *place);

/*
 * Gives the visit that logical block `block` dates from: stores in `visit` the
 * name of the descriptor, a snapshot's or the active volume's own, whose region
 * contains the block that a read gives; or sixteen zeros, which are no name, where
 * there is no such block since the entry is nil. Like a read, it is asked of the
 * active volume where `snapshot` is 0, and the name is then not looked at; of the
 * snapshot that has the name where `snapshot` is any other number. The card is not
 * altered.
 * On a card that these calls have made since its format, it is the region in which
 * the version that a read gives was last written. Zeros that were written have a
 * region as any other bytes have. On any other card it is the region that contains
 * the block, and no more is said.
 * The region is named as it is called now: by the active volume's name while it is
 * the active one, and by the snapshot's once a snapshot has closed it. After a
 * revert on a card of revision 0 the region of that snapshot is the active one and
 * bears the active volume's name; on revision 1 it keeps the snapshot's.
 *
 * Refusals, in this order: 1; 4 (only where `snapshot` is not 0); 6; 7 (only
 * where `snapshot` is not 0); 8; 10. `visit` is then sixteen zeros.
 */
uint32_t mantreuy_visit(const uint8_t *card, size_t card_length, uint32_t snapshot,
                        const uint8_t *name, size_t name_length, uint32_t block,
                        uint8_t visit[MANTREUY_NAME_SIZE], uint32_t *place);

/*
 * Writes `bytes`, which must be 512 bytes long, as logical block `block` of the
 * active volume. No snapshot changes. On a card that these calls have made it
 * takes 0, 1 or 2 new blocks: none where the content that it replaces was written
 * since the newest snapshot, or since the format where there is none; in layout 2
 * two where it is the first write to its group of 128 logical blocks since then;
 * otherwise one. Writes that a revert has taken back do not count. Zeros are
 * written like any other bytes.
 *
 * Refusals, in this order: 1; 9; 6; 8; 10; 11 (beta plus the new blocks > N).
 */
uint32_t mantreuy_write(uint8_t *card, size_t card_length, uint32_t block,
                        const uint8_t *bytes, size_t bytes_length, uint32_t *place);

/*
 * Writes `bytes`, of any length, from byte `offset` of the active volume on,
 * whatever blocks that span touches. The other bytes of these blocks keep their
 * value, or are zero where a block had no content. No snapshot changes. The span
 * is done whole or refused whole. Accepted, it leaves the card that a
 * mantreuy_write of each block that it touches leaves, one after the other,
 * rising. So it takes as many new blocks as these writes take together, each
 * counted after those before it: in layout 2 two for the first block of a group
 * that was not written to since the newest snapshot, one for the next.
 * Before its first store it makes the whole check of mantreuy_check, which visits
 * every entry of every descriptor. Its time therefore grows with L and with the
 * number of snapshots: measured on x86-64, of the library as an older kit of
 * Rattle compiled it, the check takes 0.2 us at L 128 without a snapshot, 9 to
 * 15 us at L 14,336, and 2 to 5 ms there with 255.
 * mantreuy_write makes no check. Where the check takes too long, as it may on the
 * old board of a home machine, a caller can read each block that the span touches,
 * change the bytes and write the block. Where all these writes are accepted the
 * card is the same; but the first ones may be accepted and a later one refused.
 *
 * Refusals, in this order: 1; 6; 16; 10 (the answer of the check, with its
 * place); 11 (beta plus the new blocks of the whole span > N). 16 goes by the sum
 * as in mantreuy_read_span. A span of length 0 meets the same tests, the check
 * among them, and changes nothing.
 */
uint32_t mantreuy_write_span(uint8_t *card, size_t card_length, uint64_t offset,
                             const uint8_t *bytes, size_t bytes_length, uint32_t *place);

/*
 * Freezes the active volume as a snapshot under the name. The active volume
 * keeps its own name and its content. It takes c new blocks of the card.
 *
 * Refusals, in this order: 1; 4; 6; 12; 13; 11 (beta + c > N).
 */
uint32_t mantreuy_snap(uint8_t *card, size_t card_length,
                       const uint8_t *name, size_t name_length, uint32_t *place);

/*
 * Makes the content of the snapshot that has the name that of the active volume.
 * All later snapshots are gone, and their names may be given again. On a card of
 * revision 0 this snapshot is gone too: its descriptor becomes the active one. On
 * a card of revision 1 it stays, listed under its name and as it is byte for
 * byte, and can be gone back to any number of times; the active volume goes on in
 * a region of its own right after it, which opens with c blocks, for which there
 * is always room. The blocks after the active region are free again; their bytes
 * are not wiped. The active name stays.
 *
 * Refusals, in this order: 1; 4; 6; 7.
 */
uint32_t mantreuy_revert(uint8_t *card, size_t card_length,
                         const uint8_t *name, size_t name_length, uint32_t *place);

/*
 * Lists the chain into `records`, a list of records_length / 28 records, rounded
 * down: the snapshots, oldest first, then the active volume. Record i has the
 * bytes
 *   28 * i       the name, 16 bytes
 *   28 * i + 16  alpha, the block of its descriptor, 4 bytes
 *   28 * i + 20  beta, the first block after its region, 4 bytes
 *   28 * i + 24  next, the block of the next descriptor, 4 bytes
 * each number with its lowest byte first. next is 0 in the record of the
 * active volume and in no other; N minus its beta is the number of free blocks.
 * Bytes of `records` after the last record that was filled are not
 * altered, nor is the card. MANTREUY_MOST_RECORDS records are always enough.
 *
 * Refusals, in this order: 1; 6; 14 (fewer records than descriptors). `records`
 * is then not altered.
 */
uint32_t mantreuy_list(const uint8_t *card, size_t card_length,
                       uint8_t *records, size_t records_length, uint32_t *place);

/*
 * Checks the whole card: 0 where it passes, or the first fault. The chain must
 * be sound, and of the entries of each descriptor it asks:
 *   - every entry is in place;
 *   - entries past n in Phi, and past L in the last table block, are nil;
 *   - no block is named twice within one descriptor, Phi and tables together;
 *   - in layout 2, where an entry of a table block is at or above alpha, so is
 *     the table block.
 * Descriptors are taken in chain order, their entries rising: in layout 2 each
 * entry of Phi, then those of the table block that it names. Of a block named
 * twice, the later naming is at fault.
 * On a card that passes, every accepted call leaves one that passes. The card
 * is not altered. The content of blocks is not checked: there is no checksum.
 * Every entry of every descriptor is visited, so with many snapshots a check, and
 * a span write, which makes one, take far longer than the other calls.
 *
 * Refusals, in this order: 1; 6; 10.
 */
uint32_t mantreuy_check(const uint8_t *card, size_t card_length, uint32_t *place);

/*
 * Makes a name of a text: where the text is 1 to 16 of the bytes of a name and
 * `name` is 16 bytes long, `name` is then the text and zero bytes after it, and
 * 0 is returned. Otherwise 4 is returned, and `name` is not altered.
 * text_length does not count a closing zero byte of a C string. There is no
 * place.
 */
uint32_t mantreuy_pad_name(const uint8_t *text, size_t text_length,
                           uint8_t *name, size_t name_length);

#ifdef __cplusplus
}
#endif

#endif
