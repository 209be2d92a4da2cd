// Keys that an attacker who knows the index's seed would choose: all of them have their first slots among a few neighbours.
//
//   flood_keys SEED SLOTS SPAN COUNT     prints COUNT keys whose first slots are below SPAN, of SLOTS (a power of two)
//
// The hash is that of crates/index/src/hash.rt: the library's FoldHasher, which takes in the seed before each key.
#include <stdint.h>
#include <stdio.h>
#include <stdlib.h>
#include <string.h>

static const uint64_t multiplier = 0x9e3779b97f4a7c15, beginning = 0x243f6a8885a308d3;

static uint64_t folded(uint64_t a, uint64_t b) {
    unsigned __int128 product = (unsigned __int128)a * b;
    return (uint64_t)product ^ (uint64_t)(product >> 64);
}

// The hash of a key of 9 to 16 bytes.
static uint64_t hash_of(uint64_t seed, const char *key, size_t length) {
    uint64_t state = folded(beginning ^ seed, multiplier ^ (2 * 8)), first, last;
    memcpy(&first, key, 8);
    memcpy(&last, key + length - 8, 8);
    return folded(first ^ (state + length), last ^ multiplier);
}

int main(int count, char **words) {
    if (count != 5) {
        fprintf(stderr, "flood_keys: SEED SLOTS SPAN COUNT\n");
        return 2;
    }
    uint64_t seed = strtoull(words[1], NULL, 0), slots = strtoull(words[2], NULL, 0), span = strtoull(words[3], NULL, 0);
    long left = atol(words[4]);
    for (uint64_t number = 0; left > 0; number++) {
        char key[32];
        size_t length = (size_t)snprintf(key, sizeof key, "flood-%010lu", (unsigned long)number);
        if ((hash_of(seed, key, length) & (slots - 1)) < span) {
            puts(key);
            left--;
        }
    }
    return 0;
}
