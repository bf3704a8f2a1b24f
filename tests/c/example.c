/*
 * The bench shelf from C: three drives of two blocks, four bytes to a block, and one slot. Each case starts there, and the rows are
 * printed before it and after each of its calls. A row is a block on all drives; while its sum, the XOR of them all, is zero, each
 * of its blocks is the XOR of the others.
 *
 * Printing goes through write(2) alone, so that the program needs no headers but those of the compiler itself. It is C99, and C++ too.
 */
#include "shelf.h"

#ifdef __cplusplus
extern "C"
#endif
long write(int file, const void *bytes, size_t count);

enum { DRIVES = 3, BLOCKS = 2, LENGTH = 4, MEDIA = 68, IMAGE = 92 };

static const uint8_t bench[IMAGE] = {
    0, 0, 0, DRIVES, 0, 0, 0, BLOCKS, 0, 0, 0, LENGTH, 0, 0, 0, 1, 0, 0, 0, 2, /* counts */
    0, 0, 0, 32, 0, 0, 0, 44, 0, 0, 0, MEDIA,                                  /* offsets */
    0, 0, 0, 1, 0, 0, 0, 2, 0, 0, 0, 3,                                        /* drives 1, 2 and 3, all present */
    0, 0, 0, 0, 0, 0, 0, 0, 0, 0, 0, 0, 0, 0, 0, 0, 0, 0, 0, 0, 0, 0, 0, 0,    /* the slot, empty */
    0x0A, 0x0B, 0x0C, 0x0D, 0, 0, 0, 0,                                        /* the blocks of drive 1 */
    0x01, 0x02, 0x03, 0x04, 0, 0, 0, 0,                                        /* of drive 2 */
    0x0B, 0x09, 0x0F, 0x09, 0, 0, 0, 0,                                        /* of drive 3 */
};

static const uint8_t fresh[LENGTH] = {0xFF, 0x00, 0xFF, 0x00};
static uint8_t image[IMAGE];
static uint8_t result[LENGTH];
static int failed = 0;

static void say(const char *text) {
    size_t length = 0;
    while (text[length] != 0)
        length++;
    if (write(1, text, length) != (long)length)
        failed = 1;
}

static void say_bytes(const uint8_t *bytes, size_t count) {
    static const char digits[] = "0123456789abcdef";
    for (size_t i = 0; i < count; i++) {
        const char pair[3] = {digits[bytes[i] / 16], digits[bytes[i] % 16], 0};
        say(pair);
    }
}

/* Says the blocks of each row, drive by drive, and their sum. */
static void say_rows(const char *when) {
    say(when);
    for (size_t row = 0; row < BLOCKS; row++) {
        uint8_t sum[LENGTH] = {0};
        say(row == 0 ? "    row 0 " : "    row 1 ");
        for (size_t drive = 0; drive < DRIVES; drive++) {
            const uint8_t *block = image + MEDIA + (drive * BLOCKS + row) * LENGTH;
            shelf_xor(sum, sizeof sum, block, LENGTH);
            say(" ");
            say_bytes(block, LENGTH);
        }
        say("  sum ");
        say_bytes(sum, LENGTH);
        say("\n");
    }
}

static void begin(const char *name) {
    for (size_t i = 0; i < IMAGE; i++)
        image[i] = bench[i];
    for (size_t i = 0; i < LENGTH; i++)
        result[i] = 0;
    say(name);
    say_rows("  before\n");
}

/* Says what a step that was to be GOOD handed back instead. */
static void complain(uint32_t answer, const uint8_t *sense) {
    const uint8_t number[2] = {(uint8_t)(answer / 256), (uint8_t)(answer % 256)};
    say("  answered ");
    say_bytes(number, 2);
    if (answer == SHELF_CHECK_CONDITION) {
        say(", sense ");
        say_bytes(sense, (size_t)sense[7] + 8);
    }
    say("\n");
    failed = 1;
}

static uint32_t send(uint32_t target, const uint8_t *cdb, size_t cdb_len, const uint8_t *data, size_t data_len,
                     uint8_t *room, size_t room_len) {
    uint8_t sense[SHELF_SENSE_SIZE];
    uint32_t count = 0;
    uint32_t answer = shelf_step(image, IMAGE, target, cdb, cdb_len, data, data_len, room, room_len, sense, sizeof sense, &count);
    if (answer != SHELF_GOOD)
        complain(answer, sense);
    return count;
}

/* New data to block 0 of drive 1. Sec Ctl 0 sends the result to block 0 of drive 3, and 3 retains it. */
static void xdwrite(uint8_t sec_ctl) {
    const uint8_t cdb[16] = {SHELF_XDWRITE, (uint8_t)(sec_ctl << 1), 0, 0, 0, 0, 0, 1, 0, 0, 3, 0, 0, 0, 0, 0};
    send(1, cdb, sizeof cdb, fresh, sizeof fresh, NULL, 0);
    say_rows("  after XDWRITE to drive 1\n");
}

/* A command on block 0 of drive 1 that hands a result back: XDREAD, or XDWRITEREAD(10) with new data. */
static void fetch(const char *what, uint8_t code, const uint8_t *data, size_t data_len) {
    const uint8_t cdb[10] = {code, 0, 0, 0, 0, 0, 0, 0, 1, 0};
    uint32_t count = send(1, cdb, sizeof cdb, data, data_len, result, sizeof result);
    say(what);
    say_bytes(result, count);
    say("\n");
    say_rows("  after it\n");
}

/* XPWRITE of the result, which C1h and 51h do alike. */
static void xpwrite(uint8_t code) {
    const uint8_t cdb[10] = {code, 0, 0, 0, 0, 0, 0, 0, 1, 0};
    send(3, cdb, sizeof cdb, result, sizeof result, NULL, 0);
    say_rows("  after XPWRITE to drive 3\n");
}

int main(void) {
    begin("C1: drive 1 sends its result to drive 3\n");
    xdwrite(0);
    begin("C2: drive 1 retains its result, and row 0 is open\n");
    xdwrite(3);
    begin("C3: the result is fetched and carried to drive 3\n");
    xdwrite(3);
    fetch("  XDREAD from drive 1 hands back ", SHELF_XDREAD, NULL, 0);
    xpwrite(SHELF_XPWRITE);
    begin("53h: drive 1 hands its result back in the same step, and 51h carries it to drive 3\n");
    fetch("  XDWRITEREAD(10) to drive 1 hands back ", SHELF_XDWRITEREAD_10, fresh, sizeof fresh);
    xpwrite(SHELF_XPWRITE_10);
    return failed;
}
