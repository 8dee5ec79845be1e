/* calls WORD: 1,000 calls of the function for a word, in hexadecimal: data processing, transfer or load and store. bench/calls counts them. s0 and s1 are 1, and
 * FPSCR bit 4, inexact, is set. */
#include <stdlib.h>

#include "fpu.h"

int main(int argc, char **argv)
{
    static uint32_t state[FPU_STATE_WORDS], answer[FPU_ANSWER_WORDS], window[16];
    if (argc != 2 || fpu_new(state, FPU_STATE_WORDS) != FPU_FINISHED)
        return 1;
    state[FPU_PLACE_S0] = state[FPU_PLACE_S0 + 1] = 0x3F800000;
    state[FPU_PLACE_FPSCR_EXCEPTIONS] = FPU_EXCEPTION_INEXACT;
    uint32_t word = (uint32_t)strtoul(argv[1], NULL, 16);
    for (int i = 0; i < 1000; i++) {
        if ((word >> 25 & 7) == 6)
            fpu_coprocessor_load_store(state, FPU_STATE_WORDS, window, 16, 0, 0, word, answer, FPU_ANSWER_WORDS);
        else if (word >> 4 & 1)
            fpu_coprocessor_register(state, FPU_STATE_WORDS, 0, word, answer, FPU_ANSWER_WORDS);
        else
            fpu_data_processing(state, FPU_STATE_WORDS, 0, word, answer, FPU_ANSWER_WORDS);
    }
    return 0;
}
