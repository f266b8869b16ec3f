// Prints names that collide under the hash of fixed seed that the maps of the Rattle toolchain have where they are given
// no other: colliding_names COUNT GROUPS. All of them begin at the same group of a table of so many groups, a power of
// two; with 1 any names do. Names that a stranger chooses so cost the square of their count where that hash keeps them;
// bench/hostile.sh shows that they don't here.

#include <stdint.h>
#include <stdio.h>
#include <stdlib.h>
#include <string.h>

enum { LENGTH = 12 };

static const uint64_t MULTIPLIER = 0x9e3779b97f4a7c15;
static const uint64_t START = 0x243f6a8885a308d3;

static uint64_t folded_multiply(uint64_t a, uint64_t b) {
    unsigned __int128 product = (unsigned __int128)a * b;
    return (uint64_t)product ^ (uint64_t)(product >> 64);
}

// The hash of a text of 9 to 16 bytes, with the byte 255 behind it that ends a text.
static uint32_t hash_of(const char *name, uint64_t length) {
    uint64_t first, last;
    memcpy(&first, name, 8);
    memcpy(&last, name + length - 8, 8);
    uint64_t state = folded_multiply(first ^ (START + length), last ^ MULTIPLIER);
    state = folded_multiply(state ^ 0xFFFFFF, MULTIPLIER ^ 2);
    return (uint32_t)(state ^ state >> 32);
}

int main(int argc, char **argv) {
    static const char DIGITS[] = "ABCDEFGHIJKLMNOPQRSTUVWXYZ012345";
    long wanted = argc > 2 ? strtol(argv[1], NULL, 10) : 0;
    uint32_t groups = argc > 2 ? (uint32_t)strtoul(argv[2], NULL, 10) : 1;
    for (uint64_t number = 0; wanted > 0; number++) {
        char name[LENGTH + 1] = "NAME";
        for (int at = 4; at < LENGTH; at++) {
            name[at] = DIGITS[number >> 5 * (at - 4) & 31];
        }
        if ((hash_of(name, LENGTH) & (groups - 1)) == 0) {
            puts(name);
            wanted--;
        }
    }
    return 0;
}
