// A subscriber in C++: it prints the rows that the first reader of a configuration holds.
//
// usage: listen CONFIG PORT SECONDS     (a port of 127.0.0.1)
#include "uapubsub.hpp"
#include "uapubsub_posix.h"
#include <charconv>
#include <cstring>
#include <fstream>
#include <iostream>
#include <iterator>

namespace {

// How long a round waits, in milliseconds, and how many datagrams it takes at most: a peer that sends without a pause must not keep it
// from the timers.
constexpr int round_ms = 10, most_a_round = 64;

constexpr char usage[] = "the words are CONFIG PORT SECONDS: a file, a port from 1 to 65535, and 1 to 1000000";

void demand(bool is_so, const char *else_said) {
    if (!is_so) throw std::runtime_error(else_said);
}

// A word as a number from 1 to `most`. Anything else is refused, the port 0 too, which would be any port.
unsigned number_of(const char *word, unsigned most) {
    unsigned number = 0;
    const char *end = word + std::strlen(word);
    const std::from_chars_result read = std::from_chars(word, end, number);
    demand(read.ec == std::errc() && read.ptr == end && number >= 1 && number <= most, usage);
    return number;
}

std::string text_of(const char *name) {
    std::ifstream file(name, std::ios::binary);
    std::string text((std::istreambuf_iterator<char>(file)), std::istreambuf_iterator<char>());
    demand(file && !text.empty(), "cannot read the configuration");
    return text;
}

uapubsub::Subscriber open(const std::string &text) {
    auto opened = uapubsub::Subscriber::open(text);
    if (opened.status() == UAP_REFUSED) throw std::runtime_error(uapubsub::refused(text));
    return std::move(opened).value();
}

class Listener {
public:
    Listener(const std::string &text, std::uint16_t port)
        : subscriber(open(text)), reading(field("reading")), celsius(field("celsius")) {
        demand(uap_posix_udp_open(&udp, "127.0.0.1", port, "127.0.0.1", port, 0) == 0, "cannot open the port");
    }
    ~Listener() { uap_posix_udp_close(&udp); }
    Listener(const Listener &) = delete;
    Listener &operator=(const Listener &) = delete;

    void listen(std::uint64_t duration_ms) {
        const std::uint64_t begun = uap_posix_now_ms();
        for (std::uint64_t now = begun; now - begun < duration_ms;) {
            const int waited = uap_posix_wait(&udp, now + round_ms);
            demand(waited == 0 || waited == EINTR, "cannot wait");
            now = uap_posix_now_ms();
            receive(now);
            demand(bool(subscriber.expire(now)), "cannot subscribe");
            show();
        }
        std::cout << "taken " << taken << ", refused " << refused << std::endl;
    }

private:
    // The field of the first data set, which the first reader reads.
    uapubsub::Field field(const char *name) {
        uapubsub::Field it;
        demand(uap_field_index(subscriber.raw(), it.set, name, &it.index) == UAP_OK, "a field isn't there");
        return it;
    }

    void receive(std::uint64_t now) {
        std::size_t length = 0;
        for (int i = 0; i < most_a_round && uap_posix_receive(&udp, bytes.data(), bytes.size(), &length) == 0; i++)
            (is_taken(now, length) ? taken : refused)++;
    }

    // Gives the datagram to all read groups. Whether one of them took it.
    bool is_taken(std::uint64_t now, std::size_t length) {
        const auto takings = subscriber.take(now, std::span(bytes).first(length));
        demand(bool(takings), "cannot subscribe");
        return takings->took > 0;
    }

    void show() {
        const int number = subscriber.number(reader).value_or(0), last = printed;
        printed = subscriber.number(reader) ? number : -1;
        if (printed < 0 || printed == last) return;
        std::cout << "message " << number << ": reading " << subscriber.get<std::uint32_t>(reader, reading).value() << ", "
                  << subscriber.get<std::string>(reader, celsius).value() << std::endl;
    }

    uapubsub::Subscriber subscriber;
    uapubsub::Reader reader;
    uapubsub::Field reading, celsius;
    uap_posix_udp udp = {-1, {}};
    std::vector<std::uint8_t> bytes = std::vector<std::uint8_t>(65536);
    unsigned long taken = 0, refused = 0;
    int printed = -1;
};

}

int main(int count, char **words) {
    try {
        demand(count == 4, usage);
        const unsigned port = number_of(words[2], 65535), seconds = number_of(words[3], 1000000);
        Listener(text_of(words[1]), static_cast<std::uint16_t>(port)).listen(std::uint64_t{1000} * seconds);
        return 0;
    } catch (const std::exception &error) {
        std::cerr << "listen: " << error.what() << "\n";
        return 1;
    }
}
