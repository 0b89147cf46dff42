/* Tuharimo: a verified checker for small rules by which control tables are checked.
 *
 * One call reads a rule, checks it and prints what was found. It takes any text, allocates
 * nothing, keeps nothing from one call to the next, and always ends.
 *
 * Link with libtuharimo.a, which `rt staticlib tuharimo` makes in target/staticlib/.
 */

#ifndef TUHARIMO_H
#define TUHARIMO_H

#include <stddef.h>
#include <stdint.h>

#ifdef __cplusplus
extern "C" {
#endif

/* A longer text is refused whatever it holds, so a caller need not read further than one byte
 * beyond this. */
#define TUHARIMO_TEXT_LIMIT 8192

/* An output of so many bytes is long enough for the answer to any text: 31 for the names, and at
 * most 105 for each of 96 lines. */
#define TUHARIMO_OUTPUT_ENOUGH 10200

/* Answers the rule text `text` of `text_len` bytes: checks it over known bits and ranges, and
 * prints the answer into `output`, which has `output_len` bytes. The answer is plain ASCII in
 * lines that end in a line feed, with one space between fields; no zero byte ends it. It is
 * either
 *
 *     line cause register least most          the names, and
 *     7 4 2 0 255                             a line for each report, none if the rule is accepted
 *
 * where the register is `-` if the report concerns a constant, or, for a text that is no rule,
 *
 *     number line place layer                 the names, and
 *     5 3 21 2                                why and where it is refused
 *
 * docs/LANGUAGE.md says what the numbers of a refusal mean, docs/CHECK.md those of a cause.
 *
 * Returns how many bytes were printed; the bytes of `output` behind them are left as they were.
 * If the output is too short for the answer, returns 0 and leaves all of it as it was. No answer
 * is empty, so 0 says nothing else.
 *
 * The caller has to see to it that `text` points to `text_len` bytes that may be read and
 * `output` to `output_len` bytes that may be written, that the two do not overlap, and that
 * neither is a null pointer, also where its length is 0. Calls from several threads do not
 * disturb each other as long as their outputs are different. A call needs some 150 KB of stack.
 */
size_t tuharimo_answer(const uint8_t *text, size_t text_len,
                       uint8_t *output, size_t output_len);

#ifdef __cplusplus
}
#endif

#endif
