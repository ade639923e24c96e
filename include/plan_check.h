/* The judge of case files, for programs in C. Link with target/staticlib/libcapi.a (`bin/staticlib`), on x86-64. */
#ifndef PLAN_CHECK_H
#define PLAN_CHECK_H

#include <stddef.h>
#include <stdint.h>

#ifdef __cplusplus
extern "C" {
#endif

/* What plan_judge returns, and what out[0] holds. */
enum plan_verdict {
    PLAN_PROVED = 0,   /* out: kept, total, rounds */
    PLAN_UNPROVED = 1, /* out: kept, total, rounds */
    PLAN_REFUTED = 2,  /* out: letters, state, constructor */
    PLAN_REFUSED = 3   /* out: number, place, 0 */
};

/* This many flags are enough for every file. */
#define PLAN_MOST_BINDINGS 1024

/* Judges the file_length bytes at file and returns the verdict.
 *
 * flags: flags_length bytes that are lent. For a binding case that is not refused, each binding's byte becomes 1 if it
 * is kept and 0 if it is dropped; every other byte is left as it was. A refusal and a path leave all of them as they were.
 * out: four numbers that every call writes, a refusal too: the verdict, then its three values, 0 where it has fewer. They
 * are the answer, and what they held before does not matter.
 *
 * The answer is proved for all bytes and all lengths, if the three areas do not overlap, file can be read, and flags and
 * out can be written; a length of 0 still needs a pointer that is not null. Nothing is kept after the call, and no
 * memory is taken but less than 1 MB of the caller's stack, which is measured and not proved. */
uint64_t plan_judge(const uint8_t *file, size_t file_length, uint8_t *flags, size_t flags_length, uint64_t out[4]);

#ifdef __cplusplus
}
#endif

#endif
