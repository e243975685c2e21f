/* Tries what the header says of an output's room: below 64 bytes the number is 11 and no byte changes, and of a longer
 * one only the first 64 do. The status is 0 where all of it held. */
#include "sumpillow.h"

#include <stdio.h>
#include <string.h>

typedef uint8_t hash(const uint8_t *, size_t, uint8_t *, size_t);

int main(void)
{
    hash *const hashes[] = {sumpillow_blake2b, sumpillow_state, sumpillow_blake2bp};
    const uint8_t input[] = {'a', 'b', 'c'};
    int wrong = 0;
    for (size_t h = 0; h < 3; h++) {
        uint8_t digest[SUMPILLOW_DIGEST_LENGTH];
        wrong += hashes[h](input, sizeof input, digest, sizeof digest) != SUMPILLOW_ACCEPTED;
        for (size_t room = 0; room <= 200; room++) {
            uint8_t out[256], expected[256];
            memset(out, 0xA5, sizeof out);
            memset(expected, 0xA5, sizeof expected);
            int fits = room >= sizeof digest;
            if (fits) {
                memcpy(expected, digest, sizeof digest);
            }
            uint8_t number = hashes[h](input, sizeof input, out, room);
            wrong += number != (fits ? SUMPILLOW_ACCEPTED : SUMPILLOW_OUTPUT);
            wrong += memcmp(out, expected, sizeof out) != 0;
        }
    }
    printf("rooms of 0 to 200 bytes: %d wrong\n", wrong);
    return wrong != 0;
}
