// jcobs.hpp: the calls of jcobs.h for C++17. The functions of this header are inline and allocate nothing. They throw
// only if a callback throws.
//
// SPDX-License-Identifier: MIT OR Apache-2.0
//
// To receive frames in chunks of any size:
//
//     unsigned char buffer[1024];
//     unsigned char bytes[256];
//     jcobs::receiver receiver(buffer);
//     ssize_t n;
//
//     while ((n = read(fd, bytes, sizeof bytes)) > 0)
//         receiver.push({bytes, static_cast<std::size_t>(n)},
//                       [](jcobs::view message) { handle(message.data(), message.size()); },
//                       [](jcobs_answer answer) { complain(answer.status); });
//
// To send a message:
//
//     std::array<unsigned char, jcobs::max_length(1024) + 1> frame;
//     const jcobs_answer answer = jcobs::encode_terminated(std::string_view(text), frame);
//
//     if (answer.status == JCOBS_OK)
//         transmit(frame.data(), answer.length);
//
// To send a message that comes in chunks:
//
//     std::array<std::byte, jcobs::max_length(1024) + 1> room;
//     jcobs::sender sender(room);
//
//     if (sender.push(std::string_view("id: ")) && sender.push(std::string_view(text))) {
//         const jcobs::view frame = sender.finish_terminated();
//         if (!frame.empty())
//             transmit(frame.data(), frame.size());
//     }
//     sender.reset();
//
// jcobs.h describes the members status, consumed and length of the jcobs_answer that a call returns. The preconditions
// of jcobs.h apply here too: for example, the input and the buffer of a call must not overlap, and nothing else may
// change them while the call runs. A view that is made from a container has the right length. If you make a view from a
// pointer and a length, the pointer must be valid for that many bytes.
#ifndef JCOBS_HPP
#define JCOBS_HPP

#include "jcobs.h"

#include <array>
#include <cstddef>
#include <iterator>
#include <string_view>
#include <type_traits>
#include <utility>

// With this attribute Clang warns if a view outlives the temporary object that owns the view's bytes.
#if defined(__has_cpp_attribute)
#if __has_cpp_attribute(gsl::Pointer)
#define JCOBS_POINTER [[gsl::Pointer]]
#endif
#endif
#ifndef JCOBS_POINTER
#define JCOBS_POINTER
#endif

namespace jcobs
{

namespace detail
{

// Says whether a range has contiguous elements of one byte each. These elements must be trivially copyable, and if Byte
// isn't const, they must not be const either. For an array of char the value is false, because the '\0' at the end of
// the array would be one of the bytes.
template <class Range, class Byte, class = void> struct is_bytes : std::false_type {
};
template <class Range, class Byte>
struct is_bytes<
    Range, Byte,
    std::void_t<decltype(std::data(std::declval<Range &>())), decltype(std::size(std::declval<Range &>()))>> {
    using element = std::remove_pointer_t<decltype(std::data(std::declval<Range &>()))>;
    static constexpr bool value =
        sizeof(element) == 1 && std::is_trivially_copyable_v<element> &&
        (std::is_const_v<Byte> || !std::is_const_v<element>)&&!(std::is_array_v<std::remove_reference_t<Range>> &&
                                                                std::is_same_v<std::remove_const_t<element>, char>);
};

// Says whether a range is a temporary object that owns its bytes, which are destroyed with the object. A container owns
// its bytes, and the bytes of a const container are const. So a range is taken for an owner if a const range of the
// same type has const bytes. A view for writing isn't an owner: even if the view is const, its bytes aren't.
template <class Range, class = void> struct is_temporary : std::false_type {
};
template <class Range>
struct is_temporary<Range, std::enable_if_t<!std::is_lvalue_reference_v<Range> && is_bytes<Range, const char>::value>>
    : std::is_const<std::remove_pointer_t<decltype(std::data(std::declval<const Range &>()))>> {
};

} // namespace detail

// A pointer to bytes and the number of bytes, like std::span in C++20. A view can be made from any container or view
// that stores its elements in one block of memory, if the elements are bytes (unsigned char, char or std::byte). For an
// array of char, which may end with a '\0', pass a pointer and a length. A view for reading can be made from a
// temporary object, and is valid as long as that object exists. A view for writing can't be made from a temporary
// object that owns its bytes, because the written bytes would be destroyed with the object.
template <class Byte> class JCOBS_POINTER basic_view
{
    using anything = std::conditional_t<std::is_const_v<Byte>, const void, void>;
    template <class Range>
    static constexpr bool is_taken = detail::is_bytes<Range, Byte>::value &&
                                     (std::is_const_v<Byte> || !detail::is_temporary<Range>::value);

  public:
    constexpr basic_view() noexcept = default;
    basic_view(anything *data, std::size_t size) noexcept : data_(static_cast<Byte *>(data)), size_(size)
    {
    }
    template <class Range, std::enable_if_t<is_taken<Range>, int> = 0>
    basic_view(Range &&range) noexcept : basic_view(std::data(range), std::size(range))
    {
    }
    template <class Range, std::enable_if_t<detail::is_bytes<Range, Byte>::value && !is_taken<Range>, int> = 0>
    basic_view(Range &&temporary) = delete;

    constexpr Byte *data() const noexcept
    {
        return data_;
    }
    constexpr std::size_t size() const noexcept
    {
        return size_;
    }
    constexpr bool empty() const noexcept
    {
        return size_ == 0;
    }
    constexpr Byte *begin() const noexcept
    {
        return data_;
    }
    constexpr Byte *end() const noexcept
    {
        return data_ + size_;
    }
    constexpr Byte &operator[](std::size_t index) const noexcept
    {
        return data_[index];
    }

  private:
    Byte *data_ = nullptr; // may be null if there are no bytes
    std::size_t size_ = 0;
};

using view = basic_view<const unsigned char>; // bytes that a function reads
using buffer = basic_view<unsigned char>;     // bytes that a function writes

// Returns the length of the longest frame that a message of message_len bytes can have, not counting a sentinel.
// Returns 0 if this length doesn't fit a size_t.
[[nodiscard]] constexpr std::size_t max_length(std::size_t message_len) noexcept
{
    return JCOBS_MAX_LENGTH(message_len) < message_len ? 0 : JCOBS_MAX_LENGTH(message_len);
}

// Returns the greatest number of bytes that encoding adds to a message of message_len bytes, not counting a sentinel.
constexpr std::size_t max_overhead(std::size_t message_len) noexcept
{
    return JCOBS_MAX_OVERHEAD(message_len);
}

// encode encodes a message with the sentinel 0 or with the given sentinel, and writes the frame to the front of a
// buffer. encode_terminated also writes the sentinel after the frame.
[[nodiscard]] inline jcobs_answer encode(view message, buffer frame) noexcept
{
    return jcobs_encode(message.data(), message.size(), frame.data(), frame.size());
}
[[nodiscard]] inline jcobs_answer encode(view message, buffer frame, unsigned char sentinel) noexcept
{
    return jcobs_encode_with_sentinel(message.data(), message.size(), frame.data(), frame.size(), sentinel);
}
[[nodiscard]] inline jcobs_answer encode_terminated(view message, buffer frame) noexcept
{
    return jcobs_encode_terminated(message.data(), message.size(), frame.data(), frame.size());
}
[[nodiscard]] inline jcobs_answer encode_terminated(view message, buffer frame, unsigned char sentinel) noexcept
{
    return jcobs_encode_terminated_with_sentinel(message.data(), message.size(), frame.data(), frame.size(), sentinel);
}

// Encodes a message in its own buffer. Before the call the message begins at index start of the buffer, which must be at
// least max_overhead(message_len). If the status is JCOBS_OK, the frame begins at index 0 after the call. Otherwise the
// buffer is as it was.
[[nodiscard]] inline jcobs_answer encode_in_place(buffer bytes, std::size_t start, std::size_t message_len) noexcept
{
    return jcobs_encode_in_place(bytes.data(), bytes.size(), start, message_len);
}

// Decodes the first frame of the source, and writes the message to the front of a buffer. Leading zeros are skipped.
[[nodiscard]] inline jcobs_answer decode(view source, buffer message) noexcept
{
    return jcobs_decode(source.data(), source.size(), message.data(), message.size());
}

// Decodes a frame that was encoded with the given sentinel. The frame is at the front of the source, and the message is
// written to the front of a buffer. No sentinel is skipped: if the source begins with a sentinel, the message is empty.
[[nodiscard]] inline jcobs_answer decode_with_sentinel(view source, buffer message, unsigned char sentinel) noexcept
{
    return jcobs_decode_with_sentinel(source.data(), source.size(), message.data(), message.size(), sentinel);
}

// decode_in_place decodes the frame at the front of a buffer, and writes the message to the front of the same buffer.
// The frame was encoded with the sentinel 0 or with the given sentinel. With a sentinel other than 0, the call also
// changes the bytes between the end of the message and the end of the frame.
[[nodiscard]] inline jcobs_answer decode_in_place(buffer bytes) noexcept
{
    return jcobs_decode_in_place(bytes.data(), bytes.size());
}
[[nodiscard]] inline jcobs_answer decode_in_place(buffer bytes, unsigned char sentinel) noexcept
{
    return jcobs_decode_in_place_with_sentinel(bytes.data(), bytes.size(), sentinel);
}

// Returns whether the bytes are a frame, and if so, whether this frame is the shortest one for its message. Pass the
// bytes without the sentinels before and after them.
[[nodiscard]] inline jcobs_kind frame_kind(view bytes) noexcept
{
    return static_cast<jcobs_kind>(jcobs_frame_kind(bytes.data(), bytes.size()));
}

// Decodes a stream of frames, and writes each message to the front of a buffer. The sentinel follows each frame. The
// stream may be passed in chunks of any size. The buffer must outlive the receiver. Don't change the contents of the
// buffer while a frame is open. A receiver can be moved, but not while its push runs a callback. A receiver that was
// moved from is idle, and has no buffer.
class receiver
{
  public:
    explicit receiver(buffer messages, unsigned char sentinel = 0) noexcept : buffer_(messages), sentinel_(sentinel)
    {
    }
    receiver(receiver &&other) noexcept
        : decoder_(std::exchange(other.decoder_, {})), buffer_(std::exchange(other.buffer_, {})),
          consumed_(std::exchange(other.consumed_, 0)), sentinel_(other.sentinel_)
    {
    }
    receiver &operator=(receiver &&other) noexcept
    {
        if (this != &other) {
            decoder_ = std::exchange(other.decoder_, {});
            buffer_ = std::exchange(other.buffer_, {});
            consumed_ = std::exchange(other.consumed_, 0);
            sentinel_ = other.sentinel_;
        }
        return *this;
    }

    // Decodes the next bytes of the stream. For each message whose frame ends in these bytes, calls on_message(view).
    // For each broken frame that ends in these bytes, and for each frame whose message is too long for the buffer,
    // calls on_error(jcobs_answer). A message is in the buffer while on_message runs; after that, the next frame may
    // overwrite the message.
    //
    // The member consumed of the jcobs_answer counts only bytes of this push. If an earlier frame ended in this push,
    // the count begins after the sentinel of that frame. Otherwise it begins at the start of the push.
    //
    // If a callback throws, the push has processed the bytes up to and including the sentinel after the frame that the
    // callback was called for, and no later bytes. The receiver is then idle, and the next push begins a new frame.
    template <class OnMessage, class OnError> void push(view bytes, OnMessage &&on_message, OnError &&on_error)
    {
        consumed_ = 0;
        for (std::size_t at = 0; at < bytes.size();) {
            const jcobs_answer answer = next(bytes.data() + at, bytes.size() - at);
            at += answer.consumed;
            consumed_ = at;
            if (answer.status == JCOBS_OK)
                on_message(view(buffer_.data(), answer.length));
            else if (answer.status != JCOBS_MORE)
                on_error(answer);
        }
    }

    // Decodes the next bytes of the stream. Calls on_message(view) for each message whose frame ends in these bytes,
    // and ignores frames that are broken, or whose message is too long.
    template <class OnMessage> void push(view bytes, OnMessage &&on_message)
    {
        push(bytes, std::forward<OnMessage>(on_message), [](jcobs_answer) {});
    }

    // Returns how many bytes the last push processed: all bytes that were passed to it, unless a callback threw.
    [[nodiscard]] std::size_t consumed() const noexcept
    {
        return consumed_;
    }

    // Decodes one byte of the stream. If the status is JCOBS_OK, the message is the first `length` bytes of the buffer.
    [[nodiscard]] jcobs_answer feed(unsigned char byte) noexcept
    {
        const auto fed = static_cast<unsigned char>(byte ^ sentinel_);
        return jcobs_decoder_feed(&decoder_, buffer_.data(), buffer_.size(), fed);
    }

    // Returns whether the receiver is idle, which means that no frame is open. A frame is open from its first byte
    // until the sentinel that ends it.
    [[nodiscard]] bool is_idle() const noexcept
    {
        return jcobs_decoder_is_idle(&decoder_) == 1;
    }

    // Makes the receiver idle. If a frame was open, the bytes of this frame that are pushed later are taken for a new
    // frame.
    void reset() noexcept
    {
        jcobs_decoder_reset(&decoder_);
    }

  private:
    // Decodes the bytes up to and including the first sentinel that ends a frame, or all bytes if no frame ends in
    // them.
    jcobs_answer next(const unsigned char *bytes, std::size_t len) noexcept
    {
        if (sentinel_ == 0)
            return jcobs_decoder_push(&decoder_, buffer_.data(), buffer_.size(), bytes, len);
        return jcobs_decoder_push_with_sentinel(&decoder_, buffer_.data(), buffer_.size(), bytes, len, sentinel_);
    }

    jcobs_decoder decoder_ = JCOBS_DECODER_INIT;
    buffer buffer_;
    std::size_t consumed_ = 0;
    unsigned char sentinel_;
};

// Encodes messages that come in chunks, one message after another, and writes each frame to the front of a buffer. The
// buffer must outlive the sender. From the first push or feed of a message until the message is finished, don't change
// the contents of the buffer. A sender can be moved. A sender that was moved from has no message and no buffer.
class sender
{
  public:
    explicit sender(buffer frame) noexcept : buffer_(frame)
    {
    }
    sender(sender &&other) noexcept
        : encoder_(std::exchange(other.encoder_, {})), buffer_(std::exchange(other.buffer_, {}))
    {
    }
    sender &operator=(sender &&other) noexcept
    {
        if (this != &other) {
            encoder_ = std::exchange(other.encoder_, {});
            buffer_ = std::exchange(other.buffer_, {});
        }
        return *this;
    }

    // push encodes the next bytes of the message, and feed encodes the next byte. If the frame of the message,
    // including the new bytes, doesn't fit the buffer, push and feed return false and change nothing.
    [[nodiscard]] bool push(view bytes) noexcept
    {
        return jcobs_encoder_push(&encoder_, buffer_.data(), buffer_.size(), bytes.data(), bytes.size()).status ==
               JCOBS_OK;
    }
    [[nodiscard]] bool feed(unsigned char byte) noexcept
    {
        return jcobs_encoder_feed(&encoder_, buffer_.data(), buffer_.size(), byte).status == JCOBS_OK;
    }

    // finish ends the message, and returns its frame, which is encoded with the given sentinel. finish_terminated also
    // writes the sentinel after the frame, and returns the frame with the sentinel. The returned bytes are in the
    // buffer until the next push, feed or finish. If these bytes don't fit the buffer, the result is an empty view, and
    // nothing has changed. You can then drop the message with reset. A push succeeds only if the frame without the
    // sentinel fits, so finish returns an empty view only if the size of the buffer is 0.
    [[nodiscard]] view finish(unsigned char sentinel = 0) noexcept
    {
        return for_sentinel(jcobs_encoder_finish(&encoder_, buffer_.data(), buffer_.size()), sentinel);
    }
    [[nodiscard]] view finish_terminated(unsigned char sentinel = 0) noexcept
    {
        return for_sentinel(jcobs_encoder_finish_terminated(&encoder_, buffer_.data(), buffer_.size()), sentinel);
    }

    // Discards the message.
    void reset() noexcept
    {
        jcobs_encoder_reset(&encoder_);
    }

  private:
    // XORs each byte of the finished frame with the sentinel, and returns the frame.
    view for_sentinel(jcobs_answer answer, unsigned char sentinel) noexcept
    {
        for (std::size_t i = 0; sentinel != 0 && i < answer.length; i++)
            buffer_[i] = static_cast<unsigned char>(buffer_[i] ^ sentinel);
        return {buffer_.data(), answer.length};
    }

    jcobs_encoder encoder_ = JCOBS_ENCODER_INIT;
    buffer buffer_;
};

} // namespace jcobs

#endif
