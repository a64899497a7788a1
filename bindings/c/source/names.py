"""Names and comments of jcobs.c that replace those of the Rattle sources. They use the words of jcobs.h."""

# Functions. A function that isn't listed keeps its name in Rattle, with jcobs_ or the name of its type before it.
FUNCTIONS = {
    "UnbufferedDecoder::end": "jcobs_decoder_end_piece",
    "UnbufferedDecoder::feed": "jcobs_decoder_step",
    "UnbufferedDecoder::feed_piece_with_sentinel": "jcobs_decoder_take_bytes",
    "UnbufferedEncoder::feed": "jcobs_encoder_try_feed",
    "UnbufferedEncoder::close": "jcobs_encoder_close_block",
    "UnbufferedEncoder::finalize": "jcobs_encoder_try_finish",
    "UnbufferedEncoder::push": "jcobs_encoder_try_push",
    "answer_of": "jcobs_end_answer",
    "decode_in_place": "jcobs_read_in_place",
    "decode_in_place_report": "jcobs_read_frame_in_place",
    "decode_in_place_with_sentinel": "jcobs_read_in_place_for",
    "decode_with_sentinel": "jcobs_read_frame_for",
    "done": "jcobs_ok_answer",
    "encode": "jcobs_write_frame",
    "encode_in_place": "jcobs_write_in_place",
    "frame_len": "jcobs_encoder_length",
    "max_encoding_overhead": "jcobs_max_overhead",
    "position_or_len": "jcobs_find",
    "result_of": "jcobs_decoder_answer",
    "terminated": "jcobs_terminated_answer",
    "too_small": "jcobs_too_small_answer",
    "try_encode": "jcobs_try_write_frame",
    "try_encode_with_sentinel": "jcobs_try_write_frame_for",
}
# For each part of jcobs.c, the call of jcobs.h with which the part begins, and the heading of the part.
SECTIONS = {
    "jcobs_max_length": "Encoding a whole message",
    "jcobs_decode": "Decoding a whole frame",
    "jcobs_decoder_reset": "Decoding a stream",
    "jcobs_encoder_reset": "Encoding a message that comes in chunks",
}
# Parameters and variables of each function; the names under "" apply to every function. The length of the slice `NAME` is
# called `NAME_size` if the slice is a buffer to write to, and otherwise `NAME_len`. A call of jcobs.h and the functions that
# it calls use the same names.
VARIABLES = {
    "": {"bytes_len": "len"},
    "UnbufferedDecoder::end": {"len": "buffer_size", "ended": "before"},
    "UnbufferedDecoder::take_steps": {"here": "state"},
    "UnbufferedDecoder::take_blocks": {"here": "state"},
    "UnbufferedDecoder::take_part": {"len'": "taken"},
    "UnbufferedEncoder::finalize": {"len": "length"},
    "UnbufferedEncoder::has_room": {"len": "buffer_size"},
    "decode_first": {"progress": "decoder"},
    "decode_blocks": {"progress": "decoder"},
    "decode_blocks_in_place": {"progress": "decoder"},
    "encode_in_place": {"len": "message_len"},
    "jcobs_decode_in_place": {"end": "frame_len"},
    "jcobs_decoder_feed": {"found": "end"},
    "jcobs_decoder_push": {"found": "end"},
    "jcobs_decoder_push_with_sentinel": {"found": "end"},
    "max_encoding_overhead": {"source_len": "message_len"},
    "result_of": {"room": "buffer_size", "found": "end"},
}
# Functions that aren't inlined, because that takes more flash.
APART = {"max_encoding_overhead"}
# Functions that are inlined only with JCOBS_FAST (JCOBS_ONCE in top.c): without it, one copy of each is smaller.
ONE_COPY = {
    "UnbufferedDecoder::feed_piece_with_sentinel", "UnbufferedDecoder::take_steps",
    "decode_first", "encode", "position_or_len", "try_encode",
}
# Functions whose calls are replaced by the value that the function returns.
WRITTEN_OUT = {"UnbufferedDecoder::is_at_code", "UnbufferedDecoder::is_idle", "copy_slice", "move_back"}
# Functions of cobs_c that do what a function of cobs does, which isn't public.
SAME = {"first_sentinel": "position_or_len"}
# Methods that return a number of an end.
ACCESSORS = {"frame_size": "count", "parsed_size": "consumed"}
# For each function that returns several values, a struct for these values: its name, and the names of the values.
SEVERAL = {
    "kept_len": ("kept", ["len", "is_whole"]),
    "write_zeros_at_codes": ("last_block", ["code", "missing"]),
}
# The constant that is the greatest number of bytes that are encoded or decoded one by one.
THRESHOLD = "SHORT"
# Functions that return the length of a frame, which is never 0, or an error. In C they return a length, and 0 for the error.
NEVER_EMPTY = {"try_encode", "try_encode_with_sentinel"}
# Functions for the methods of numbers: each is written if it is called.
METHODS = {
    "min": "static JCOBS_INLINE size_t jcobs_min(size_t a, size_t b)\n{\n    return a < b ? a : b;\n}",
    "max": "static JCOBS_INLINE size_t jcobs_max(size_t a, size_t b)\n{\n    return a > b ? a : b;\n}",
    "saturating_sub": """/* Returns a - b, or 0 if b is greater than a. */
static JCOBS_INLINE size_t jcobs_saturating_sub(size_t a, size_t b)
{
    return a > b ? a - b : 0;
}""",
    "sum_or_zero": """/* Returns the sum of a and b, or 0 if the sum doesn't fit a size_t. */
static size_t jcobs_sum_or_zero(size_t a, size_t b)
{
    return b > (size_t)-1 - a ? 0 : a + b;
}""",
}
# Calls of jcobs.h that are written by hand.
BY_HAND = ["jcobs_strerror", "jcobs_version", "jcobs_abi_1"]
# Comments of constants.
CONSTANTS = {"SHORT": "up to this many bytes are searched, encoded and decoded one by one"}
# Numbers that have a name.
NUMBERS = {"254": "FULL_BLOCK_BYTES"}
# For each way in which a piece or a frame can end, the variants of Rattle that stand for it.
ENDS = {
    "JCOBS_END_NONE": ("None", "EmptyFrame"),
    "JCOBS_END_MESSAGE": ("Message", "Some", "Ok"),
    "JCOBS_END_BROKEN": ("Broken", "InvalidFrame"),
    "JCOBS_END_TOO_LONG": ("TooLong", "TargetBufTooSmall"),
}
# Comments: for each function, a text in its comments in Rattle, and the text that replaces it in C. The texts under "" apply to
# every function. After these replacements, each name of Rattle in backticks is replaced by its name in C. A name that could be
# read as an ordinary word keeps its backticks.
COMMENTS = {
    "": [(" The Rust crate `cobs` has no such call.", ""), (" The Rust crate `cobs` doesn't guarantee this.", "")],
    "UnbufferedDecoder::end": [(
        "and returns the result for this zero. `len` is the buffer's length.",
        "and returns how the piece ended. The buffer has buffer_size bytes.",
    )],
    "UnbufferedDecoder::feed_piece_with_sentinel": [(
        " The results are those of [`feed_piece`](Self::feed_piece), with this sentinel in place of 0.",
        "",
    )],
    "UnbufferedDecoder::feed": [(
        ", with `dest` as the buffer. The results and errors are those of [`CobsDecoder::feed`](crate::CobsDecoder::feed). As long as the"
        " output of the piece fits the buffer, the byte changes the decoder's state in the same way as it would change a"
        " [`DecoderState`](crate::DecoderState).",
        ", and writes the output of this byte to `dest`. It returns JCOBS_END_TOO_LONG at each byte of a piece that is too long.",
    )],
    "UnbufferedDecoder::take_part_in_place": [("`take_part` in `run.rt`", "`UnbufferedDecoder::take_part`")],
    "UnbufferedDecoder::take_run": [(
        "If the piece is too long, `feed` returns an error for each of the next bytes of the piece, and `push` must stop at the"
        " first of these bytes. So no byte is decoded here.",
        "",
    )],
    "UnbufferedEncoder::finalize": [(
        "Ends the message, and returns",
        "Ends the message, if the state is possible in a buffer of this size, and returns",
    )],
    "jcobs_decoder_feed": [("`feed` returns an error for other bytes too", "jcobs_decoder_step returns an end for other bytes too")],
    "jcobs_decoder_reset": [("Makes the decoder idle, even if its state is corrupt.", "Resets the decoder to the initial state, from any state.")],
    "jcobs_encoder_reset": [(
        "Resets the encoder to the start of a message, even if its state is corrupt.",
        "Resets the encoder to the initial state, from any state.",
    )],
}
