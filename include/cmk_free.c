/* The exported cmk_free, for languages that can't use the header's. It isn't covered by the proofs. */
#define cmk_free cmk_free_inline
#include "cmk.h"
#undef cmk_free

void cmk_free(cmk_output *output);

void cmk_free(cmk_output *output) {
    cmk_free_inline(output);
}
