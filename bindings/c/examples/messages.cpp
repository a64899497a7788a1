// Encodes and decodes messages in vectors and views, in C++17.
#include <jcobs.hpp>

#include <algorithm>
#include <cstdio>
#include <optional>
#include <string_view>
#include <vector>

using bytes = std::vector<unsigned char>;

// Returns the frame of a message, with a zero after it.
static bytes encode(jcobs::view message)
{
    bytes frame(jcobs::max_length(message.size()) + 1);
    frame.resize(jcobs::encode_terminated(message, frame).length);
    return frame;
}

// Returns the message of the first frame of a source, unless there is no frame or the frame is broken.
static std::optional<bytes> decode(jcobs::view source)
{
    bytes message(source.size());
    const jcobs_answer answer = jcobs::decode(source, message);
    if (answer.status != JCOBS_OK)
        return std::nullopt;
    message.resize(answer.length);
    return message;
}

static void print_message(jcobs::view message)
{
    std::printf("message %zu:", message.size());
    for (const unsigned char byte : message)
        std::printf(" %02x", static_cast<unsigned int>(byte));
    std::printf("\n");
}

static void print_error(jcobs_answer answer)
{
    char text[JCOBS_TEXT_LENGTH];
    jcobs_strerror(answer.status, text, sizeof text);
    std::printf("error: %s\n", text);
}

int main()
{
    using namespace std::string_view_literals;

    const bytes none; // its data() may return null
    const jcobs::view messages[] = {"hello"sv, none, "a\0b"sv, "a longer one"sv};
    bytes stream;
    for (const jcobs::view message : messages) {
        const bytes frame = encode(message);
        stream.insert(stream.end(), frame.begin(), frame.end());
    }
    bytes room(8);
    jcobs::receiver receiver(room);
    for (std::size_t at = 0; at < stream.size(); at += 7) {
        const std::size_t size = std::min<std::size_t>(7, stream.size() - at);
        receiver.push({stream.data() + at, size}, print_message, print_error);
    }
    const std::optional<bytes> first = decode(stream);
    std::printf("first message: %zu bytes\n", first ? first->size() : 0);
    std::printf("of nothing: %s\n", decode(none) ? "a message" : "no message");
    return 0;
}
