#ifndef PLAIN_H
#define PLAIN_H

#include <jcobs.h>

jcobs_answer plain_decoder_push(jcobs_decoder *decoder, void *buffer, size_t buffer_size, const void *bytes,
                                size_t len);
jcobs_answer plain_encoder_push(jcobs_encoder *encoder, void *buffer, size_t buffer_size, const void *bytes,
                                size_t len);
jcobs_answer plain_encoder_finish(jcobs_encoder *encoder, void *buffer, size_t buffer_size);
jcobs_answer plain_encode_terminated(const void *message, size_t message_len, void *frame, size_t frame_size);
jcobs_answer plain_encoder_finish_terminated(jcobs_encoder *encoder, void *buffer, size_t buffer_size);
jcobs_answer plain_decode_frame(const void *source, size_t source_len, void *message, size_t message_size);
jcobs_answer plain_decode_in_place(void *buffer, size_t buffer_len);
unsigned int plain_frame_kind(const void *bytes, size_t len);

#endif
