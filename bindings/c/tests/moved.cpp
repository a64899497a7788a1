// Tests jcobs.hpp: receivers, with their buffers, in a vector that grows.
#include <jcobs.hpp>

#include <cstdio>
#include <string>
#include <string_view>
#include <vector>

struct Link {
    std::vector<unsigned char> buffer;
    jcobs::receiver receiver;

    explicit Link(std::size_t size) : buffer(size), receiver(buffer)
    {
    }
};

int main()
{
    std::vector<Link> links;
    std::string received;
    const auto on_message = [&](jcobs::view message) { received.append(message.begin(), message.end()); };

    for (int i = 0; i < 20; i++) { // each receiver gets the first half of a frame, and is moved while the frame is open
        links.emplace_back(8);
        links.back().receiver.push(std::string_view("\4he"), on_message);
    }
    links.erase(links.begin(), links.begin() + 17);
    for (Link &link : links)
        link.receiver.push(std::string_view("y\0", 2), on_message);
    std::puts(received == "heyheyhey" ? "receivers in a vector go on after each move" : "failed");
    return received == "heyheyhey" ? 0 : 1;
}
