/* Prints a script that sets N cookies of one host whose names collide in the store's maps under the fixed hash key: their
   SipHash-1-3 by the key 0, of which a map uses 32 bits, has the same first byte and the same last 11 bits. A map of up to
   18,432 names then has them all in one place.
       cc -O3 -o collisions tools/collisions.c
       ./collisions 18000 > colliding      (some four minutes)
       ./collisions 2300 paths             (some four seconds)
   With `names`, `paths` or `domains` as second argument it prints those, one a line. They have the same last 8 bits, and collide
   in a map of up to 2,304.
   tools/bench runs the program on such names, and tools/keys on all three: under its random key they take less than twice as long as others. */
#include <stdbool.h>
#include <stdint.h>
#include <stdio.h>
#include <stdlib.h>
#include <string.h>

static uint64_t rotated(uint64_t word, int bits) { return word << bits | word >> (64 - bits); }

static void sip_round(uint64_t v[4]) {
    v[0] += v[1]; v[2] += v[3];
    v[1] = rotated(v[1], 13) ^ v[0]; v[3] = rotated(v[3], 16) ^ v[2];
    v[0] = rotated(v[0], 32);
    v[2] += v[1]; v[0] += v[3];
    v[1] = rotated(v[1], 17) ^ v[2]; v[3] = rotated(v[3], 21) ^ v[0];
    v[2] = rotated(v[2], 32);
}

static void absorb(uint64_t v[4], uint64_t word) {
    v[3] ^= word;
    sip_round(v);
    v[0] ^= word;
}

/* The hash of seven bytes and of the byte 255 that ends a string, folded to the 32 bits that a map uses. */
static uint32_t hash(uint64_t word) {
    uint64_t v[4] = {0x736f6d6570736575, 0x646f72616e646f6d, 0x6c7967656e657261, 0x7465646279746573};
    absorb(v, word);
    absorb(v, (uint64_t)8 << 56);
    v[2] ^= 255;
    sip_round(v); sip_round(v); sip_round(v);
    uint64_t whole = v[0] ^ v[1] ^ v[2] ^ v[3];
    return (uint32_t)(whole ^ whole >> 32);
}

int main(int argc, char **argv) {
    bool is_script = argc < 3;
    int missing = argc > 1 ? atoi(argv[1]) : 18000, bits = is_script ? 6 : 5;
    const char *letters = is_script ? "abcdefghijklmnopqrstuvwxyzABCDEFGHIJKLMNOPQRSTUVWXYZ0123456789-_"
                                    : "abcdefghijklmnopqrstuvwxyz012345";
    uint32_t mask = is_script ? 0xFF0007FF : 0xFF0000FF;
    /* A domain that begins with a letter is no IPv4 address. */
    char first = is_script ? 0 : strcmp(argv[2], "paths") == 0 ? '/' : 'a';
    if (is_script) puts("now 2026-01-01T00:00:00Z");
    for (uint64_t number = 0; missing > 0; number++) {
        uint64_t word = (uint64_t)255 << 56, rest = number;
        char string[8] = {first};
        for (int at = first ? 1 : 0; at < 7; at++, rest >>= bits) string[at] = letters[rest & ((1u << bits) - 1)];
        for (int at = 0; at < 7; at++) word |= (uint64_t)(unsigned char)string[at] << 8 * at;
        if ((hash(word) & mask) == 0x01000000) {
            printf(is_script ? "set http://example.com/ %s=1\n" : "%s\n", string);
            missing--;
        }
    }
    return 0;
}
