/* Defines the push for a sentinel, which vectors.c makes and exports.rs doesn't have: the byte is XORed with the
 * sentinel. */
#include <jcobs.h>

#include <stdlib.h>

jcobs_answer jcobs_decoder_push_with_sentinel(jcobs_decoder *decoder, void *buffer, size_t buffer_size,
                                              const void *bytes, size_t len, unsigned char sentinel)
{
    unsigned char byte;

    if (len != 1)
        abort();
    byte = (unsigned char)(*(const unsigned char *)bytes ^ sentinel);
    return jcobs_decoder_push(decoder, buffer, buffer_size, &byte, 1);
}
