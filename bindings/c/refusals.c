/* The sentence of each refusal, from the list in the header. */
#include "jelmorand.h"

#define SENTENCE(number, name, sentence) case name: return sentence;

const char *jelmorand_refusal_sentence(int64_t number)
{
    switch (number) {
        JELMORAND_REFUSALS(SENTENCE)
    default:
        return "a ground that this version does not know";
    }
}
