/*
 * Leaves for tools/leaf-object to read: the first is as the shelf's own must be, each of the others breaks one of the things that it is
 * held to. The gate sees that the first is accepted, and each of the others refused for what it breaks.
 */
typedef unsigned char byte;
typedef unsigned long count;

void other_leaf(byte *into, const byte *from, count n);

void thin(byte *into, const byte *from, count n) {
    for (count i = 0; i < n; i++)
        into[i] ^= from[i];
}

/* It goes through a local copy of the block. */
void through_a_copy(byte *into, const byte *from, count n) {
    byte copy[4096];
    n = n < sizeof copy ? n : sizeof copy;
    for (count i = 0; i < n; i++)
        copy[i] = into[i];
    for (count i = 0; i < n; i++)
        copy[i] ^= from[i];
    for (count i = 0; i < n; i++)
        into[i] = copy[i];
}

/* It goes through a copy of a few bytes at a time: too many, and where the stack has a red zone, below the stack pointer. */
void through_pieces(byte *into, const byte *from, count n) {
    volatile byte piece[80];
    for (count at = 0; at + sizeof piece <= n; at += sizeof piece) {
        for (count i = 0; i < sizeof piece; i++)
            piece[i] = from[at + i];
        for (count i = 0; i < sizeof piece; i++)
            into[at + i] ^= piece[i];
    }
}

/* Its stack grows with the length. */
void growing(byte *into, const byte *from, count n) {
    volatile byte copy[n + 1];
    for (count i = 0; i < n; i++)
        copy[i] = from[i];
    for (count i = 0; i < n; i++)
        into[i] ^= copy[i];
}

/* So does that of one which calls itself. */
void calling_itself(byte *into, const byte *from, count n) {
    if (n == 0)
        return;
    calling_itself(into + 1, from + 1, n - 1);
    *into ^= *from;
}

/* It calls another function, or ends in one. */
void calling_out(byte *into, const byte *from, count n) {
    other_leaf(into, from, n);
    thin(into, from, n);
}

void ending_elsewhere(byte *into, const byte *from, count n) {
    other_leaf(into, from, n);
}

/* It goes byte by byte. */
void slow(byte *into, const byte *from, count n) {
#pragma clang loop vectorize(disable) unroll(disable)
    for (count i = 0; i < n; i++)
        into[i] ^= from[i];
}
