#include "answers.h"

#include "warpmagpie.h"

struct answer {
    const char *name, *meaning;
};

/* Number and name come from one word, so that no number can have another's name. */
#define ANSWER(constant, meaning) [constant] = {#constant, meaning}

static const struct answer ANSWERS[] = {
    ANSWER(WARPMAGPIE_DONE, "done"),
    ANSWER(WARPMAGPIE_REFUSED_UNKNOWN, "no such register address or vector"),
    ANSWER(WARPMAGPIE_REFUSED_RESERVED, "reserved setting"),
    ANSWER(WARPMAGPIE_REFUSED_UNMODELLED, "mode not modelled"),
    ANSWER(WARPMAGPIE_REFUSED_UNDER_WAY, "setting changed while a frame or transfer is under way"),
    ANSWER(WARPMAGPIE_REFUSED_RECORD, "record not 64 bytes, a field out of its range, or an unused byte not zero"),
    ANSWER(WARPMAGPIE_REFUSED_LENGTH, "output slice not as long as the level slice"),
    ANSWER(WARPMAGPIE_REFUSED_LEVEL, "a level byte with bit 5, 6 or 7 set"),
    ANSWER(WARPMAGPIE_REFUSED_UNREQUESTED, "vector taken without its request"),
    ANSWER(WARPMAGPIE_REFUSED_MALFORMED, "text or list of a trace malformed"),
    ANSWER(WARPMAGPIE_REFUSED_DIFFERENT, "a call of a trace answered otherwise than recorded"),
    ANSWER(WARPMAGPIE_REFUSED_RANGE, "clock not 1 to 20,000,000 Hz, or rate not 1 to 2,500,000"),
    ANSWER(WARPMAGPIE_REFUSED_ROOM, "text longer than the buffer for it"),
};

static const struct answer NO_ANSWER = {"no answer", "a number that no call gives"};

/* A number that the table leaves out has null there. */
static const struct answer *find(uint8_t number)
{
    if (number >= sizeof ANSWERS / sizeof *ANSWERS || ANSWERS[number].name == NULL)
        return &NO_ANSWER;
    return &ANSWERS[number];
}

const char *answer_name(uint8_t answer)
{
    return find(answer)->name;
}

const char *answer_meaning(uint8_t answer)
{
    return find(answer)->meaning;
}
