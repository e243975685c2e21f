/* What a C program links of Sumpillow: the archives of `bin/build exports` (BLAKE2b) and of
 * `bin/build exports_blake2bp` (BLAKE2bp), for x86-64 Linux. They need memcpy and nothing else.
 *
 * All functions here have one form. The caller keeps both pieces of memory; nothing is kept after the call, and nothing
 * is allocated.
 *
 *   input, length   length bytes that can be read and that nothing writes during the call
 *   out, room       room bytes that can be written and that nothing else reads or writes during the call
 *
 * Neither pointer is null, also where its length is 0. The two pieces do not overlap, and neither is longer than
 * PTRDIFF_MAX. No function checks this, and the proofs take it as given.
 *
 * The answer is a number: SUMPILLOW_ACCEPTED, and then the first 64 bytes of out are the digest and those behind them
 * are as they were; or SUMPILLOW_OUTPUT where room is below 64, and then all of out is as it was.
 *
 * The archive of `exports` also has sumpillow_compress1_loop and sumpillow_write_words. They are for the benchmarks,
 * the first has a precondition, and they are not declared here. */
#ifndef SUMPILLOW_H
#define SUMPILLOW_H

#include <stddef.h>
#include <stdint.h>

#define SUMPILLOW_DIGEST_LENGTH 64

#define SUMPILLOW_ACCEPTED 0
#define SUMPILLOW_OUTPUT 11

#ifdef __cplusplus
extern "C" {
#endif

/* BLAKE2b of the input, 64 bytes, without a key; in libexports.a.
 * Reads length bytes at input, writes at most 64 of the room bytes at out; both stay the caller's. */
uint8_t sumpillow_blake2b(const uint8_t *input, size_t length, uint8_t *out, size_t room);

/* The same digest, through a state and one update; in libexports.a.
 * Reads length bytes at input, writes at most 64 of the room bytes at out; both stay the caller's. */
uint8_t sumpillow_state(const uint8_t *input, size_t length, uint8_t *out, size_t room);

/* BLAKE2bp of the input, 64 bytes, without a key; in libexports_blake2bp.a.
 * Reads length bytes at input, writes at most 64 of the room bytes at out; both stay the caller's. */
uint8_t sumpillow_blake2bp(const uint8_t *input, size_t length, uint8_t *out, size_t room);

#ifdef __cplusplus
}
#endif

#endif
