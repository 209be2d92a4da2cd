/* Loaded before the C library by LD_PRELOAD: the random bytes that the program asks for are those of the number
   KNOWN_RANDOM, its lowest byte first, again and again. If it isn't set the system has none. */
#include <errno.h>
#include <stddef.h>
#include <stdint.h>
#include <stdlib.h>

int getentropy(void *bytes, size_t count) {
    const char *word = getenv("KNOWN_RANDOM");
    if (!word) {
        errno = ENOSYS;
        return -1;
    }
    uint64_t number = strtoull(word, NULL, 0);
    for (size_t at = 0; at < count; at++) {
        ((unsigned char *)bytes)[at] = (unsigned char)(number >> (at % 8 * 8));
    }
    return 0;
}
