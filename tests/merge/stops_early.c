/*
 * A fault that counts and branches have to find: a PMERGE whose comparison stops at the first words that differ. It compares, and has
 * the two answers that a comparison can give, and nothing else of PMERGE.
 */
#include "skorbilek.h"

#include <emmintrin.h>

skorbilek_answer stops_early(uint64_t *table, size_t table_words, uint64_t *memory, size_t memory_words, uint64_t caller, uint64_t hpa1,
                             uint64_t hpa2)
{
    const __m128i *one = (const __m128i *)&memory[hpa1 / 8], *two = (const __m128i *)&memory[hpa2 / 8];
    skorbilek_answer answer = {0, SKORBILEK_DONE, 0, 0, 0, 0};
    int i;
    (void)table, (void)table_words, (void)memory_words, (void)caller;
    for (i = 0; i < SKORBILEK_FRAME_WORDS / 2; i++)
        if (_mm_movemask_epi8(_mm_cmpeq_epi32(_mm_loadu_si128(&one[i]), _mm_loadu_si128(&two[i]))) != 0xffff) {
            answer.refusal = SKORBILEK_REFUSAL_CONTENTS;
            answer.kind = SKORBILEK_REFUSED;
            break;
        }
    return answer;
}
