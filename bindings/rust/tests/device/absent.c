/* Defines the calls that vectors.c names and that exports.rs doesn't have. vectors.c gets no case that makes them; each
 * of these functions ends the program. */
#include <stdlib.h>

#define ABSENT(call)                                                                                                   \
    void call(void);                                                                                                   \
    void call(void)                                                                                                    \
    {                                                                                                                  \
        abort();                                                                                                       \
    }

ABSENT(jcobs_decode_in_place_with_sentinel)
ABSENT(jcobs_decode_with_sentinel)
ABSENT(jcobs_encode_terminated_with_sentinel)
ABSENT(jcobs_encode_with_sentinel)
