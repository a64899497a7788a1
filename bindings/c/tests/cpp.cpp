// Tests jcobs.hpp: the containers that become views, and sending and receiving messages. The test is built without
// exceptions, and allocates nothing.
#include <jcobs.hpp>

#include <array>
#include <cstddef>
#include <cstdio>
#include <cstring>
#include <string>
#include <string_view>
#include <type_traits>
#include <utility>
#include <vector>
#if __cplusplus >= 202002L
#include <span>
#endif

using namespace std::string_view_literals;

template <class Range> constexpr bool is_read = std::is_constructible_v<jcobs::view, Range>;
template <class Range> constexpr bool is_written = std::is_constructible_v<jcobs::buffer, Range>;

static_assert(is_read<std::string_view> && is_read<const std::string &> && is_read<const std::vector<unsigned char> &>);
static_assert(is_read<const std::array<std::byte, 4> &> && is_read<unsigned char (&)[4]> && is_read<jcobs::buffer>);
static_assert(!is_read<const char (&)[6]> && !is_read<const std::vector<int> &> && !is_read<int>);
static_assert(is_written<std::array<std::byte, 4> &> && is_written<unsigned char (&)[4]> && is_written<std::string &>);
static_assert(!is_written<std::string_view> && !is_written<const std::array<std::byte, 4> &>);
static_assert(!is_written<jcobs::view> && !is_written<char (&)[6]>);
static_assert(jcobs::max_length(0) == 1 && jcobs::max_length(254) == 255 && jcobs::max_length(255) == 257);
static_assert(jcobs::max_length(static_cast<std::size_t>(-1)) == 0);
static_assert(jcobs::max_overhead(0) == 1 && jcobs::max_overhead(254) == 1 && jcobs::max_overhead(509) == 3);
static_assert(jcobs::max_length(static_cast<std::size_t>(-1) / 255 * 254) == static_cast<std::size_t>(-1));
static_assert(jcobs::max_length(static_cast<std::size_t>(-1) / 255 * 254 + 1) == 0);
static_assert(!std::is_copy_constructible_v<jcobs::receiver> && !std::is_copy_constructible_v<jcobs::sender>);

static_assert(std::is_nothrow_move_constructible_v<jcobs::receiver> &&
              std::is_nothrow_move_assignable_v<jcobs::receiver>);
static_assert(std::is_nothrow_move_constructible_v<jcobs::sender> && std::is_nothrow_move_assignable_v<jcobs::sender>);

// A buffer that is destroyed at the end of the expression isn't accepted; a view of a buffer that lives longer is
// accepted. Both can be read.
static_assert(!is_written<std::vector<unsigned char>> && !is_written<std::array<std::byte, 4>> &&
              !is_written<std::string>);
static_assert(!is_written<const std::vector<unsigned char>> && !is_written<unsigned char (&&)[4]>);
static_assert(is_read<std::vector<unsigned char>> && is_read<std::array<std::byte, 4>> && is_read<std::string>);
template <class Range> constexpr bool is_kept = std::is_constructible_v<jcobs::receiver, Range>;
template <class Range> constexpr bool is_sent = std::is_constructible_v<jcobs::sender, Range>;
static_assert(is_kept<std::vector<unsigned char> &> && is_kept<std::array<char, 4> &> && is_kept<unsigned char (&)[4]>);
static_assert(!is_kept<std::vector<unsigned char>> && !is_kept<std::array<char, 4>> && !is_kept<std::string>);
static_assert(is_sent<std::vector<unsigned char> &> && is_sent<jcobs::buffer> && is_kept<jcobs::buffer>);
static_assert(!is_sent<std::vector<unsigned char>> && !is_sent<std::array<std::byte, 4>>);
static_assert(!std::is_constructible_v<jcobs::receiver, std::vector<unsigned char>, unsigned char>);
#if __cplusplus >= 202002L
static_assert(is_written<std::span<unsigned char>> && is_written<std::span<std::byte, 4>>);
static_assert(is_kept<std::span<unsigned char>> && is_sent<std::span<std::byte, 4>> && !is_kept<std::span<const char>>);
#endif

static int failures = 0;

static void expect(bool holds, const char *what)
{
    if (!holds) {
        std::printf("failed: %s\n", what);
        failures++;
    }
}

static bool equal(jcobs::view bytes, std::string_view text)
{
    return bytes.size() == text.size() && (text.empty() || std::memcmp(bytes.data(), text.data(), text.size()) == 0);
}

static void test_calls()
{
    std::array<std::byte, 8> room{};
    std::array<unsigned char, 8> message{};
    const jcobs::buffer none;

    expect(jcobs::encode("a\0b"sv, room).length == 4 && equal({room.data(), 4}, "\2a\2b"sv), "encode");
    expect(jcobs::decode({room.data(), 4}, message).length == 3 && equal({message.data(), 3}, "a\0b"sv), "decode");
    std::memcpy(room.data() + jcobs::max_overhead(3), "a\0b", 3);
    expect(jcobs::encode_in_place(room, jcobs::max_overhead(3), 3).length == 4 && equal({room.data(), 4}, "\2a\2b"sv),
           "encode in place");
    expect(jcobs::encode_terminated("hi"sv, room, 7).length == 4 && room[3] == std::byte{7}, "for a sentinel");
    expect(jcobs::decode_with_sentinel({room.data(), 4}, message, 7).consumed == 4, "decode for a sentinel");
    expect(jcobs::decode("\0\2\7\0"sv, message).consumed == 4, "decode skips zeros");
    expect(jcobs::decode_with_sentinel("\0\2\7\0"sv, message, 0).consumed == 1, "and this doesn't");
    expect(jcobs::decode_in_place({room.data(), 4}, 7).length == 2 && equal({room.data(), 2}, "hi"sv), "in place");
    expect(jcobs::encode("hi"sv, room, 7).length == 3 && equal({room.data(), 3}, "\4on"sv), "encode for a sentinel");
    expect(jcobs::encode("hi"sv, room).length == 3 && jcobs::decode_in_place({room.data(), 3}).length == 2 &&
               equal({room.data(), 2}, "hi"sv),
           "in place, for 0");
    expect(jcobs::encode("hi"sv, none).status == JCOBS_TOO_SMALL, "no room");
    expect(jcobs::decode(none, message).status == JCOBS_EMPTY, "no bytes");
    expect(jcobs::frame_kind("\3hi"sv) == JCOBS_CANONICAL, "kind");
    expect(jcobs::frame_kind("\3h"sv) == JCOBS_NOT_A_FRAME, "kind of a broken frame");
    std::array<unsigned char, 256> longer;
    longer.fill(255);
    longer[255] = 1;
    expect(jcobs::frame_kind(longer) == JCOBS_LONGER, "kind of a longer frame");
}

static void test_streams()
{
    std::array<std::byte, 8> frame{};
    unsigned char messages[4];
    jcobs::sender sender(frame);
    jcobs::receiver receiver(messages);
    int met = 0;
    int errors = 0;

    expect(sender.push("he"sv) && sender.push("y"sv) && !sender.push("a longer one"sv), "push");
    expect(equal(sender.finish(), "\4hey"sv), "finish");
    expect(sender.feed('a') && sender.push("bcdef"sv) && sender.finish_terminated().size() == 8, "with a terminator");
    expect(sender.push("abcdefg"sv) && sender.finish_terminated().empty(), "no room for the terminator");
    expect(sender.finish(7).size() == 8 && frame[0] == std::byte{8 ^ 7}, "for a sentinel");
    expect(sender.push("abcdefg"sv) && !sender.feed('h'), "no room for another byte");
    sender.reset();
    expect(equal(sender.finish(), "\1"sv), "the empty message");
    const auto on_message = [&](jcobs::view message) {
        met++;
        expect(equal(message, "hey"sv), "the message");
    };
    receiver.push("\4h"sv, on_message);
    expect(!receiver.is_idle(), "a frame is open");
    receiver.push("ey\0\7toolong\0\5a\0\4hey\0\2"sv, on_message, [&](jcobs_answer) { errors++; });
    expect(met == 2 && errors == 2, "what is received");
    receiver.push({}, on_message);
    expect(receiver.consumed() == 0, "an empty push");
    receiver.reset();
    expect(receiver.is_idle(), "reset");
    for (const char byte : "\4he"sv)
        expect(receiver.feed(static_cast<unsigned char>(byte)).status == JCOBS_MORE, "more");
    expect(receiver.feed('y').status == JCOBS_MORE, "and more");
    expect(receiver.feed(0).length == 3 && equal({messages, 3}, "hey"sv), "byte by byte");

    jcobs::receiver lines(messages, '\n');
    lines.push("\x0ebos\n\x0e"sv, [&](jcobs::view message) { expect(equal(message, "hey"sv), "for a newline"); });
    expect(!lines.is_idle(), "a frame is open, for a newline");
    expect(lines.feed('\n').status == JCOBS_BROKEN, "byte by byte, for a newline");
}

// An open message continues in the object to which it is moved. The other object is idle, and has no buffer.
static void test_moves()
{
    std::array<std::byte, 8> frame{};
    unsigned char messages[4];
    jcobs::receiver first(messages, 7);
    jcobs::sender begun(frame);
    int met = 0;
    const auto on_message = [&](jcobs::view message) {
        met++;
        expect(equal(message, "hey"sv), "the message, after a move");
    };
    const auto on_error = [&](jcobs_answer answer) {
        met += 10;
        expect(answer.status == JCOBS_TOO_SMALL && answer.length == 0, "there is no buffer");
    };

    first.push("\3o"sv, on_message);
    jcobs::receiver second(std::move(first));
    expect(first.is_idle() && first.consumed() == 0 && second.consumed() == 2, "a receiver is moved");
    second.push("b~\7"sv, on_message);
    first.push("\3ob~\7"sv, on_message, on_error);
    unsigned char others[4];
    jcobs::receiver third(others);
    second.push("\3o"sv, on_message);
    third = std::move(second);
    expect(second.is_idle() && second.consumed() == 0 && third.consumed() == 2, "a receiver is assigned");
    third.push("b~\7"sv, on_message);
    second.push("\3ob~\7"sv, on_message, on_error);
    expect(met == 22, "what moved receivers receive");

    expect(begun.push("he"sv), "push");
    jcobs::sender sender(std::move(begun));
    expect(!begun.push("he"sv) && begun.finish().empty(), "a sender without a buffer");
    expect(sender.push("y"sv) && equal(sender.finish(), "\4hey"sv), "finish after a move");
    expect(sender.push("h"sv), "push after a move");
    begun = std::move(sender);
    expect(!sender.push("ey"sv) && sender.finish().empty(), "a sender that was assigned");
    expect(begun.push("ey"sv) && equal(begun.finish_terminated(7), "\3ob~\7"sv), "moved back");
}

int main()
{
    test_calls();
    test_streams();
    test_moves();
    if (failures == 0)
        std::puts("all calls of jcobs.hpp returned what they should");
    return failures == 0 ? 0 : 1;
}
