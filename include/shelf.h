/*
 * The XOR shelf: up to 32 drives that do their own XOR, held in one byte string, the image.
 *
 * The caller keeps the image and lends it for the time of a call:
 *
 *   shelf_step    carries out one SCSI command, sent to one drive
 *   shelf_reset   hard reset of a drive: drops the results that it retains
 *   shelf_mark    marks a drive present or failed
 *
 * Two more know nothing of a shelf: they XOR blocks, and an interrupt handler may call them.
 *
 *   shelf_xor        XORs a block into another
 *   shelf_xor_four   XORs four blocks into another, in two passes
 *
 * Any lengths and any bytes are safe to pass. A call reads and writes only what it is lent, and always returns; the first three
 * answer with a number. It allocates nothing and keeps nothing: no pointer, no copy, no state. All that a shelf remembers is in its
 * image.
 *
 * A buffer is a pointer, at any alignment, and the count of its bytes. What a call cannot see is up to the caller:
 *
 * - the bytes that a length tells of are there; a pointer may be NULL only where its length is 0, and `count` never is,
 * - no two buffers of a call overlap, `count` included; the data and the room of an XDWRITEREAD are two buffers. Calls that share no
 *   buffer may run at the same time.
 *
 * To link, where DIR is the folder of libshelf_c.a, with the archive's path or by its name:
 *
 *     cc driver.c DIR/libshelf_c.a
 *     cc driver.c -LDIR -lshelf_c
 *
 * The library needs nothing but the C library's memory functions (memcpy, memmove, memset), and the XOR of blocks not even these.
 */
#ifndef SHELF_H
#define SHELF_H

#include <stddef.h>
#include <stdint.h>

#ifdef __cplusplus
extern "C" {
#endif

/*
 * The image. Numbers are big-endian, and offsets count from its first byte. The header is eight numbers of four bytes:
 *
 *   at  0   D    drives                  2 to 32
 *   at  4   B    blocks of a drive       1 to 65,536
 *   at  8   L    bytes of a block        4 to 4,096, a multiple of 4
 *   at 12   S    slots                   0 to 16
 *   at 16   M    blocks that a slot has  1 to 256, and may be above B
 *   at 20        drive table at          32
 *   at 24        slots at                32 + 4*D
 *   at 28        media at                32 + 4*D + S*(16 + M*L)
 *
 * Drive table: 4 bytes for each drive, its state (0 present, 1 failed) and its address in three. Addresses are any, and differ.
 *
 * Slots: 16 + M*L bytes each, a record of 16 and M*L of data. An empty slot's record is all zero. A used one holds a result:
 *
 *   0-3     rank     the results are numbered by age, 1 the oldest, without a gap; slots hold them in any order
 *   4       kind     1 left by XDWRITE (C0h, 50h), 2 by REGENERATE
 *   5       drive    by its place in the drive table, the first being 0; present or failed
 *   6-7     length   in blocks, 1 to M
 *   8-11    block    the first; block + length is at most B
 *   12-15   zero
 *
 * Its bytes, length*L, fill the front of the data. The rest of the data, and all data of an empty slot, may be anything. Any slots
 * may be empty.
 *
 * Media: for each drive in the order of the table its B blocks of L bytes, which may be anything. Block b of the drive at place d
 * stands at media + (d*B + b)*L. The image ends after the last block: it has 32 + 4*D + S*(16 + M*L) + D*B*L bytes, not one more
 * or less. That may pass 32 bits, while the three offsets never do.
 *
 * So a new shelf is its header, its drive table, and zeros. Anything that is not as said here is SHELF_BAD_IMAGE.
 */

/*
 * What the first three functions return: a SCSI status as itself, or 256 + n for a call that is wrong in itself, by its number n.
 * Anything but SHELF_GOOD, from any of the three, leaves image and receive room as they were.
 */
#define SHELF_GOOD 0            /* carried out */
#define SHELF_CHECK_CONDITION 2 /* refused; the sense says why */
#define SHELF_BUSY 8            /* there is a result to retain and no empty slot */
#define SHELF_BAD_IMAGE 257     /* call 1: image not valid */
#define SHELF_BAD_TARGET 258    /* call 2: no such target */
#define SHELF_BAD_CDB 259       /* call 3: CDB empty, or a known code with another length */
#define SHELF_BAD_DATA 260      /* call 4: data-out bytes not the exact count */
#define SHELF_SHORT_ROOM 261    /* call 5: receive room or sense room too short */
#define SHELF_BAD_STATE 262     /* call 6: state to mark is not 0 or 1 */

/* Bytes of the sense room that a step writes. */
#define SHELF_SENSE_SIZE 37

/* Byte 0 of a CDB: the codes of 1994, those that both sets have, and the published ones. */
#define SHELF_XDWRITE 0xC0
#define SHELF_XPWRITE 0xC1
#define SHELF_XDREAD 0xC2
#define SHELF_REBUILD 0xC3
#define SHELF_REGENERATE 0xC4
#define SHELF_READ_10 0x28
#define SHELF_WRITE_10 0x2A
#define SHELF_XDWRITE_10 0x50
#define SHELF_XPWRITE_10 0x51
#define SHELF_XDREAD_10 0x52
#define SHELF_XDWRITEREAD_10 0x53

/*
 * Carries out a command on the drive with the address `target`.
 *
 *   image    the shelf, changed in place
 *   target   a drive's address has three bytes, so a target above FFFFFFh is no such target
 *   cdb      the command, see below
 *   data     the data-out bytes, exactly as many as the command sends
 *   room     the receive room: takes the bytes of a READ, XDREAD or XDWRITEREAD, from its front on, and may be longer
 *   sense    the sense room: 37 bytes or more
 *   count    takes the number of bytes put into `room`
 *
 * Where sense_len is below 37 the answer is SHELF_SHORT_ROOM before all other checks, and nothing is written, not even `count`.
 * Every other call writes `count` and the first 37 bytes of the sense room:
 *
 * - `count` is the byte count of a GOOD READ, XDREAD (C2h, 52h) or XDWRITEREAD (53h), and else 0. The bytes of `room` past it stay.
 * - The sense stands at the front of its 37 bytes, and zeros after it. Its length is 0 if byte 0 is 0, else byte 7 + 8. Only
 *   SHELF_CHECK_CONDITION comes with one:
 *
 *     18 bytes   The target refuses. Byte 0 is 70h, byte 2 the key, bytes 12 and 13 the code pair.
 *     36 bytes   No drive has the address of the secondary or of a source. The key is 0Bh, byte 8 is 12h, and from byte 18 on there
 *                is a sense of 18 bytes, 0Bh/08h/00h.
 *     37 bytes   The secondary or a source refuses. The key is 0Bh, byte 9 is 12h, byte 18 that drive's status, and from byte 19 on
 *                there is its sense of 18 bytes.
 *
 * Every sense that there is, as key/code/qualifier:
 *
 *   the target       05h/20h/00h   unknown operation code
 *   refuses          02h/04h/00h   it is marked failed
 *                    05h/24h/00h   a field of the CDB: a bit that is to be zero is not; Sec Ctl is 01, or 11 in C3h or C4h; NDisc
 *                                  without Sec Ctl 11; the secondary is the target, with Sec Ctl 00 or 10; the length is above the
 *                                  blocks of a slot, where they limit it; C3h of length FFFFFFFFh with Int Data
 *                    05h/24h/00h   XDREAD: the drive has no result at the block, or its newest there has another length
 *                    05h/1Ah/00h   the list length is below 8, or not 8 + 8 for each source
 *                    05h/26h/00h   in the list: no sources, byte 1 not 01h, bytes 2 and 3 not zero, or a source that is the target
 *                    05h/21h/00h   the drive ends before the last of the blocks; in C3h of length FFFFFFFFh, before the own block
 *   nested           0Bh/08h/00h   no drive has the address (36 bytes)
 *                    02h/04h/00h   the secondary or source is marked failed (37 bytes)
 *                    05h/21h/00h   the secondary or source ends before the last of the blocks (37 bytes)
 *
 * The outer sense of a nested one is 0Bh/00h/00h. Of several reasons the first counts: SHELF_BAD_IMAGE, SHELF_BAD_TARGET,
 * SHELF_BAD_CDB, 20h, 04h, 24h by a field, SHELF_BAD_DATA, 1Ah, 26h, 24h by XDREAD or 21h, SHELF_BUSY, nested, SHELF_SHORT_ROOM by
 * the receive room. Where nothing is moved (see length, below), it is SHELF_GOOD in place of what would come after SHELF_BAD_DATA,
 * or after 26h where a list came. Nested, the first source of the list that fails counts: by its address, its state, its blocks.
 *
 * The commands, those of 1994 and the published ones. Both sets share the slots: XDREAD of either hands out what either retained.
 *
 *   1994              published              what it does
 *   C0h  XDWRITE      50h  XDWRITE(10)       writes its blocks; data XOR old blocks are retained, or sent to the secondary (C0h)
 *   C1h  XPWRITE      51h  XPWRITE(10)       XORs its blocks into the medium
 *   C2h  XDREAD       52h  XDREAD(10)        hands out the drive's newest result at the block, which is then no longer retained
 *                     53h  XDWRITEREAD(10)   writes its blocks; data XOR old blocks go to the receive room, and it takes no slot
 *   C3h  REBUILD                             writes the XOR of the sources
 *   C4h  REGENERATE                          retains the XOR of the sources and the drive's own blocks
 *   28h  READ(10)     28h  READ(10)          hands out blocks
 *   2Ah  WRITE(10)    2Ah  WRITE(10)         writes its blocks
 *
 * Their bytes. Numbers are big-endian, lengths count blocks, list lengths bytes; what is not named is zero, the last byte too.
 *
 *   C0h               16 bytes: block 2-5, length 6-7, secondary address 8-10, secondary block 11-14
 *   C3h, C4h          10 bytes: length 2-5, list length 7-8
 *   all others        10 bytes: block 2-5, length 7-8
 *   sent              its blocks by C0h, C1h, 2Ah, 50h, 51h and 53h; the list and, with Int Data, the blocks by C3h and C4h
 *   byte 1            C0h             Mirror 40h, NDisc 20h, DPO 10h, FUA 08h, Sec Ctl in bits 2-1
 *                     50h, 53h        DPO 10h, FUA 08h, DISABLE WRITE 04h
 *                     C1h, 51h        DPO 10h, FUA 08h; so too 28h and 2Ah
 *                     C2h, 52h        none
 *                     C3h, C4h        Int Data 04h, Sec Ctl in bits 1-0
 *                     DPO and FUA are ignored. With Mirror the data itself takes the place of data XOR old blocks. NDisc, which
 *                     wants Sec Ctl 11, and DISABLE WRITE leave the medium as it is.
 *   Sec Ctl           00 or 10; 11 retains the result of C0h for a later XDREAD, and the secondary's fields are then ignored. 50h
 *                     has none and always retains.
 *   list              number of sources, 01h, two zeros, own block (4 bytes); then for each source its address and block (4 each);
 *                     the blocks that follow it with Int Data are one more operand. The order of the sources does not matter.
 *   length            at most the blocks of a slot in C0h, C1h, C4h, 50h, 51h and 53h. FFFFFFFFh in a REBUILD goes to the last
 *                     block. With a length of 0, but in an XDREAD of either set, and with a list length of 0 nothing is moved; the
 *                     latter sends nothing either.
 *
 * A rebuild may be divided. Into ranges, in any order, each with its sources' blocks moved along. Over two strings of drives: a
 * REGENERATE to a drive of the first, XDREAD of its result, and a REBUILD from the second with that as Int Data. Where each answer is
 * SHELF_GOOD and nothing else changes a medium meanwhile, the media are as one REBUILD from all those drives leaves them. So a drive
 * of any size is rebuilt over two strings, in ranges of at most the blocks of a slot.
 *
 * Stack, as measured on x86-64: REBUILD and REGENERATE at most 4,100 bytes, at any number of sources; every other call less than
 * 1,900.
 *
 * READ of block 7 of the drive with address 1, on a shelf whose blocks have 512 bytes:
 *
 *     const uint8_t cdb[10] = {SHELF_READ_10, 0, 0, 0, 0, 7, 0, 0, 1, 0};
 *     uint8_t room[512], sense[SHELF_SENSE_SIZE];
 *     uint32_t count;
 *     uint32_t answer = shelf_step(image, image_len, 1, cdb, sizeof cdb, NULL, 0, room, sizeof room, sense, sizeof sense, &count);
 *     if (answer == SHELF_GOOD)
 *         use(room, count);                  (count is 512)
 *     else if (answer == SHELF_CHECK_CONDITION)
 *         report(sense, sense[7] + 8);
 *     else
 *         give_up(answer);                   (SHELF_BAD_IMAGE or SHELF_BAD_TARGET; the rest of this call is right)
 */
uint32_t shelf_step(uint8_t *image, size_t image_len, uint32_t target,
                    const uint8_t *cdb, size_t cdb_len, const uint8_t *data, size_t data_len,
                    uint8_t *room, size_t room_len, uint8_t *sense, size_t sense_len, uint32_t *count);

/*
 * Hard reset of the drive with the address `target`, present or failed: drops all results that it retains; those of the other drives
 * keep their order. Returns SHELF_GOOD, SHELF_BAD_IMAGE or SHELF_BAD_TARGET.
 */
uint32_t shelf_reset(uint8_t *image, size_t image_len, uint32_t target);

/*
 * Marks the drive with the address `target` present (state 0) or failed (state 1). Only its state byte is written, and retained
 * results stay. Returns SHELF_GOOD, SHELF_BAD_IMAGE, SHELF_BAD_TARGET or SHELF_BAD_STATE.
 */
uint32_t shelf_mark(uint8_t *image, size_t image_len, uint32_t target, uint32_t state);

/*
 * XORs the bytes of `from` into those of `into`, as many as both have; the rest of `into` stays. It is the routine by which the
 * commands XOR a block into another.
 *
 * An interrupt handler may call it on a small stack, and count on this of it and of shelf_xor_four, at every length:
 *
 * - It has at most 64 bytes of locals. With them comes what the call itself takes: on x86-64 the return address, 8 bytes, and 32 for
 *   the arguments of shelf_xor_four that find no register; on Arm 16 for these. Nothing below the stack pointer is touched. As built
 *   now that is, in all:
 *
 *                      x86-64   Arm
 *     shelf_xor            32     0
 *     shelf_xor_four       88    16
 *
 * - It calls nothing, not even the C library, and waits for nothing. Its time grows with the bytes that it XORs.
 * - It may interrupt any call of this library, one of its own too, where the two share no buffer. So a handler does not XOR into an
 *   image, or out of one, that is lent to a call under way.
 * - It changes what the machine's C calls may change, vector registers among them: a handler saves these, or has them saved, first.
 */
void shelf_xor(uint8_t *into, size_t into_len, const uint8_t *from, size_t from_len);

/*
 * XORs the bytes of `a`, `b`, `c` and `d` into those of `into`, as many as all five have; the rest of `into` stays. With blocks of
 * one length it leaves what four calls of shelf_xor leave, but reads and writes `into` twice; REBUILD and REGENERATE go by it. What
 * is said of shelf_xor holds of it.
 */
void shelf_xor_four(uint8_t *into, size_t into_len, const uint8_t *a, size_t a_len, const uint8_t *b, size_t b_len,
                    const uint8_t *c, size_t c_len, const uint8_t *d, size_t d_len);

#ifdef __cplusplus
}
#endif

#endif
