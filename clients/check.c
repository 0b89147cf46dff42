/* Reads a rule from standard input and prints the answer: check < RULE */

#include <stdio.h>

#include "tuharimo.h"

int main(void)
{
    static uint8_t text[TUHARIMO_TEXT_LIMIT + 1]; /* one more: enough to be found too long */
    static uint8_t answer[TUHARIMO_OUTPUT_ENOUGH];

    size_t text_len = fread(text, 1, sizeof text, stdin);
    if (ferror(stdin)) {
        perror("check: cannot read the rule");
        return 1;
    }

    size_t answer_len = tuharimo_answer(text, text_len, answer, sizeof answer);

    if (fwrite(answer, 1, answer_len, stdout) < answer_len || fflush(stdout) != 0) {
        perror("check: cannot print the answer");
        return 1;
    }
    return 0;
}
