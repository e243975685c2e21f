/* Prints the digest of standard input in hexadecimal.
 *
 *     hash blake2b|state|blake2bp < FILE */
#include "sumpillow.h"

#include <stdio.h>
#include <stdlib.h>
#include <string.h>

/* All of standard input, with its length; the caller frees it. It is not null where there is no byte either. */
static uint8_t *read_input(size_t *length)
{
    size_t room = 65536;
    uint8_t *input = malloc(room);
    *length = 0;
    while (input != NULL) {
        *length += fread(input + *length, 1, room - *length, stdin);
        if (*length < room) {
            break;
        }
        uint8_t *larger = room <= PTRDIFF_MAX / 2 ? realloc(input, 2 * room) : NULL;
        if (larger == NULL) {
            free(input);
        }
        input = larger;
        room *= 2;
    }
    return input;
}

int main(int count, char **arguments)
{
    const char *name = count == 2 ? arguments[1] : "";
    uint8_t (*hash)(const uint8_t *, size_t, uint8_t *, size_t);
    if (strcmp(name, "blake2b") == 0) {
        hash = sumpillow_blake2b;
    } else if (strcmp(name, "state") == 0) {
        hash = sumpillow_state;
    } else if (strcmp(name, "blake2bp") == 0) {
        hash = sumpillow_blake2bp;
    } else {
        fputs("usage: hash blake2b|state|blake2bp < FILE\n", stderr);
        return 2;
    }

    size_t length;
    uint8_t *input = read_input(&length);
    if (input == NULL || ferror(stdin)) {
        fputs("hash: standard input was not read\n", stderr);
        free(input);
        return 1;
    }
    uint8_t digest[SUMPILLOW_DIGEST_LENGTH];
    uint8_t number = hash(input, length, digest, sizeof digest);
    free(input);
    if (number != SUMPILLOW_ACCEPTED) {
        fprintf(stderr, "hash: refused with %u\n", (unsigned)number);
        return 1;
    }
    for (size_t i = 0; i < sizeof digest; i++) {
        printf("%02x", (unsigned)digest[i]);
    }
    putchar('\n');
    return 0;
}
