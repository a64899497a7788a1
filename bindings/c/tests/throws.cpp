// Tests jcobs.hpp: how many bytes a receiver has taken if a callback throws.
#include <jcobs.hpp>

#include <cstdio>
#include <string_view>

using namespace std::string_view_literals;

// Pushes `first`; the callback for its first frame throws. This frame has `taken` bytes with its zero. Then pushes
// `second`, and returns the length of its message, or 99 if a check fails.
static std::size_t length_after(std::string_view first, std::size_t taken, std::string_view second)
{
    unsigned char messages[4];
    jcobs::receiver receiver(messages);
    const auto thrown = [](auto) { throw 1; };
    std::size_t length = 99;

    try {
        receiver.push(first, thrown, thrown);
        return 99;
    } catch (int) {
    }
    if (!receiver.is_idle() || receiver.consumed() != taken)
        return 99;
    receiver.push(second, [&](jcobs::view message) { length = message.size(); });
    return receiver.consumed() == second.size() ? length : 99;
}

int main()
{
    const bool holds = length_after("\3hi\0\4he"sv, 4, "\2a\0"sv) == 1 &&
                       length_after("\5a\0\4he"sv, 3, "\3hi\0"sv) == 2 &&
                       length_after("\7toolong\0\4he"sv, 9, "\1\0"sv) == 0;

    std::puts(holds ? "after a callback that throws, the next frame is received" : "failed");
    return holds ? 0 : 1;
}
