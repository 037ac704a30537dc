/* The check of a plan text, for programs in C. */
#ifndef SUHILBON_H
#define SUHILBON_H

#include <stddef.h>
#include <stdint.h>

#ifdef __cplusplus
extern "C" {
#endif

/* What suhilbon_check answers where no memory is to be had; no text is answered so. */
#define SUHILBON_WANT_OF_MEMORY 40

/* Checks the text of `len` bytes that begins at `text`. Answers 0 where it is a plan, else place * 64 + number of its
 * first fault: the place is an offset into the text, and the numbers are those of docs/REFUSALS.md. It keeps nothing
 * between two calls. `text` may be any pointer that is not null where `len` is 0. */
uint64_t suhilbon_check(const uint8_t *text, size_t len);

static inline unsigned suhilbon_number(uint64_t answer) { return (unsigned)(answer & 63); }
static inline uint64_t suhilbon_place(uint64_t answer) { return answer >> 6; }

#ifdef __cplusplus
}
#endif

#endif
