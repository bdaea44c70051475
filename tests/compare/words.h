/* Presence words, lent to both programs between guards. */
#ifndef COMPARE_WORDS_H
#define COMPARE_WORDS_H

#include <stddef.h>
#include <stdint.h>

/* More than a reading needs; it needs sixteen. */
enum { WORDS_NEEDED = 16, MOST_WORDS = 24 };

/* How many words the next readings are lent. */
extern size_t words_lent;

/* Lends them to either program anew. */
void lend_words(void);

/* Those of the archive (0) or of the second program (1). */
uint32_t *words_of(unsigned program);

/* The words of both programs are what a walk over these rows finds, one for each envelope, and nothing else of their memory was touched; no
   rows after a refusal. */
int words_hold(const uint32_t *rows, size_t count);

/* Both programs count as many ones in it. */
int same_ones(uint32_t word);

#endif
