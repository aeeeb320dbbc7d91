/* The answers of the archive's calls, in words, for a rig's messages. */
#ifndef EXAMPLES_ANSWERS_H
#define EXAMPLES_ANSWERS_H

#include <stdint.h>

/* The answer's name in warpmagpie.h. Any byte has one: what is no answer is "no answer". */
const char *answer_name(uint8_t answer);

/* What it means: of a refusal, exactly when it is given. */
const char *answer_meaning(uint8_t answer);

#endif
