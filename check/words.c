/* words.c: compares the functions of steps.c that say what is right with those in frama-c/words.acsl.
 *
 *     frama-c/acsl.py --c >words.h
 *     cc -I. -I../bindings/c/include words.c ../bindings/c/source/jcobs.c -o words && ./words
 *
 * words.acsl has them in ACSL, and coq/Buffers.v in Coq: there they are the coders of coq/Coders.v. A step depends only
 * on what is tried here: of `written` on whether it is 0 and whether the buffer has room, and of `index` not at all.
 */
#define main steps_main
#include "steps.c"
#undef main

#include "words.h"

static void differs(int line, const char *condition)
{
    printf("FAILED: words.c:%d: %s\n", line, condition);
    exit(1);
}

#undef CHECK
#define CHECK(condition) ((condition) ? (void)0 : differs(__LINE__, #condition))

static void decoders(void)
{
    unsigned missing, byte;
    size_t written, n;
    int joint;

    for (missing = 0; missing < 255; missing++)
        for (joint = 0; joint < 2; joint++)
            for (written = 0; written < 3; written++)
                for (n = written; n < written + 3; n++)
                    for (byte = 0; byte < 256; byte++, cases++) {
                        decoder_state state = {0, 0, 0, 0};
                        decoder_effect effect;
                        long more = byte ? adds((long)missing, joint) : 0;

                        state.written = written;
                        state.missing = missing;
                        state.joint = joint;
                        effect = decode_byte(&state, n, (u8)byte);
                        if (byte == 0) {
                            CHECK(effect.status == (missing ? JCOBS_BROKEN : joint || written ? JCOBS_OK : JCOBS_MORE));
                            CHECK(effect.length == written && !effect.puts);
                        }
                        CHECK(!state.too_long == ((long)written + more <= (long)n));
                        if (state.too_long)
                            continue;
                        CHECK((long)state.missing == missing_then((long)missing, (long)byte));
                        CHECK(state.joint == due_then((long)missing, joint, (long)byte));
                        CHECK((long)state.written == (byte ? (long)written + more : 0));
                        CHECK(effect.puts == more);
                        CHECK(!more || effect.put == added((long)missing, (long)byte));
                    }
}

static void encoders(void)
{
    unsigned taken, byte;
    int full;

    for (taken = 0; taken < 254; taken++)
        for (full = 0; full < 2; full++)
            for (byte = 0; byte < 256; byte++, cases++) {
                encoder_state state = {7, 0, 0};
                encoder_effect effect;

                state.taken = taken;
                state.full = full;
                CHECK((long)frame_length(&state) == length_of(7, (long)taken, full));
                effect = encode_byte(&state, (u8)byte);
                CHECK((long)state.taken == taken_then((long)taken, (long)byte));
                CHECK((long)state.index == 7 + used_then((long)taken, (long)byte));
                CHECK(state.full == full_then((long)taken, (long)byte));
                CHECK(effect.puts == (byte != 0) && (!byte || effect.at == 7 + taken + 1));
                CHECK(effect.closes == (byte == 0 || taken == 253));
                CHECK(!effect.closes || effect.code == (byte == 0 ? taken + 1 : 255));
            }
}

int main(void)
{
    decoders();
    encoders();
    printf("= %llu cases\n", cases);
    return 0;
}
