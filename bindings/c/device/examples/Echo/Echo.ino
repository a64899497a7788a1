// Receives messages as frames on the serial port, and sends each message back as a frame. A zero ends each frame.
//
// A frame that is broken, or whose message is longer than the buffer, is ignored, and never affects the next frame.
#include <jcobs.h>

static jcobs_decoder decoder = JCOBS_DECODER_INIT;
static unsigned char message[64];
static unsigned char frame[JCOBS_MAX_LENGTH(sizeof message) + 1];

void setup()
{
    Serial.begin(115200);
}

void loop()
{
    while (Serial.available() > 0) {
        const unsigned char byte = static_cast<unsigned char>(Serial.read());
        const jcobs_answer received = jcobs_decoder_feed(&decoder, message, sizeof message, byte);

        if (received.status == JCOBS_OK) {
            const jcobs_answer sent = jcobs_encode_terminated(message, received.length, frame, sizeof frame);
            Serial.write(frame, sent.length);
        }
    }
}
