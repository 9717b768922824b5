/* Writes the stored vectors of the name hash: what lookup3's hashlittle gives for names with their zero byte.
   One line a vector: start value, hash, and the name where it has any bytes, all hexadecimal. */
#include <stdint.h>
#include <stdio.h>
#include <stddef.h>

uint32_t jenkins_hashlittle(const void *key, size_t length, uint32_t initval);

/* A fixed sequence, so that every run writes the same vectors. */
static uint32_t state = 20170401;

static uint32_t next(void) {
    state ^= state << 13;
    state ^= state >> 17;
    state ^= state << 5;
    return state;
}

enum { KINDS = 5 };

/* The start value and the bytes of each kind. */
static uint32_t start_of(int kind) {
    static const uint32_t fixed[KINDS - 1] = {0, 1, 0xdeadbeef, 0xffffffff};
    return kind < KINDS - 1 ? fixed[kind] : next();
}

static uint8_t byte_of(int kind) {
    uint32_t x = next() >> 8;
    switch (kind) {
    case 1: return 'a' + x % 26;           /* letters */
    case 2: return x % 2 ? 0 : x / 2;      /* many zero bytes */
    case 3: return 128 + x % 128;          /* all above 127 */
    default: return x;                     /* any */
    }
}

static void vector(size_t n, int kind) {
    uint8_t name[1024];
    uint32_t start = start_of(kind);
    for (size_t i = 0; i < n; i++)
        name[i] = byte_of(kind);
    name[n] = 0;
    printf("hash %08x %08x", start, jenkins_hashlittle(name, n + 1, start));
    if (n)
        putchar(' ');
    for (size_t i = 0; i < n; i++)
        printf("%02x", name[i]);
    putchar('\n');
}

int main(void) {
    static const size_t more[] = {255, 256, 1000};
    puts("# Start value, hash and name, made from lookup3 by tests/vectors/make; crates/replay/src/main.rt says what the lines mean.");
    for (size_t n = 0; n <= 64; n++)
        for (int kind = 0; kind < KINDS; kind++)
            vector(n, kind);
    for (size_t i = 0; i < sizeof more / sizeof *more; i++)
        for (int kind = 0; kind < KINDS; kind++)
            vector(more[i], kind);
    return 0;
}
