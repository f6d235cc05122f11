// The classes of include/uapubsub.hpp over the calls: a row there and back, a restart after what was stored, bytes that are refused, the number at which
// a writer begins, and a datagram to all read groups.
#include "uapubsub.hpp"
#include <algorithm>
#include <cstdio>
#include <cstdlib>
#include <span>
#include <string>
#include <vector>

using namespace uapubsub;

#define DEMAND(holds)                                                                \
    do {                                                                             \
        if (!(holds)) {                                                              \
            std::fprintf(stderr, "%s:%d: not so: %s\n", __FILE__, __LINE__, #holds); \
            std::exit(1);                                                            \
        }                                                                            \
    } while (0)

namespace {

// The key of AES-128 whose token is 7, as hexadecimal digits.
const std::string key = "{token = 7, from = 0, signing = '" + std::string(64, '1') + "', encrypting = '" + std::string(32, '2') + "', nonce = '33333333'}";
const std::string text =
    "publisher = {id = 'u8:9'}\n"
    "dataset = [{name = 'press', field = [{name = 'strokes', kind = 'UInt32'}, {name = 'label', kind = 'String', cap = 16}]}]\n"
    "keygroup = [{name = 'keys', policy = 'aes128', random = '01020304', key = [" + key + "]}]\n"
    "group = [{name = 'fast', id = 1, interval = 100, security = 'encrypt', keygroup = 'keys', writer = [{name = 'w', id = 10, dataset = 'press'}]}]\n"
    "readgroup = [{name = 'panel', publisher = 'u8:9', group = 1, security = 'encrypt', keygroup = 'keys', reader = [{name = 'r', writer = 10, dataset = 'press'}]},"
    " {name = 'none', publisher = 'u8:9', group = 2, reader = [{name = 'n', writer = 10, dataset = 'press'}]}]\n";

std::vector<std::uint8_t> buffer(1400);

void set(Publisher &publisher, std::uint32_t strokes) {
    DEMAND(publisher.set(publisher.field("press", "strokes").value(), strokes) && publisher.set(publisher.field("press", "label").value(), "in C++"));
}

// What the turn at this moment sends is taken by the first read group.
void carry(Publisher &publisher, Subscriber &subscriber, std::uint64_t now, std::uint32_t strokes) {
    set(publisher, strokes);
    const auto datagram = publisher.next(now, buffer);
    DEMAND(datagram);
    const std::vector<std::uint8_t> before(datagram->begin(), datagram->end());
    const auto takings = subscriber.take(now, *datagram);
    DEMAND(takings && takings->took == 1 && takings->groups[0].status == UAP_OK && takings->groups[0].taken.matched == 1);
    DEMAND(takings->groups[1].status == UAP_NOT_OURS && takings->groups[2].status == UAP_INDEX && std::equal(before.begin(), before.end(), datagram->begin()));
    const Reader reader = subscriber.reader("panel", "r").value();
    DEMAND(subscriber.get<std::uint32_t>(reader, subscriber.field("press", "strokes").value()).value() == strokes);
    DEMAND(subscriber.get<std::string>(reader, subscriber.field("press", "label").value()).value() == "in C++");
}

void restarted() {
    auto publisher = Publisher::open(text).value();
    auto subscriber = Subscriber::open(text).value();
    DEMAND(publisher.begin_at(publisher.writer("fast", "w").value(), 700) && publisher.must_store());
    const State state = publisher.save(2).value();
    set(publisher, 1);
    DEMAND(publisher.next(100, buffer).status() == UAP_UNSTORED && publisher.stored() && !publisher.must_store());
    carry(publisher, subscriber, 100, 1);
    DEMAND(subscriber.number(subscriber.reader("panel", "r").value()).value() == 700);
    DEMAND(publisher.begin_at(publisher.writer("fast", "w").value(), 800) == UAP_BEGUN);
    publisher = Publisher::open(text).value();
    DEMAND(publisher.restore(200, state) && publisher.standing(0).value() == std::pair(7u, 2u) && publisher.save(2) && publisher.stored());
    carry(publisher, subscriber, 200, 2);
    DEMAND(subscriber.number(subscriber.reader("panel", "r").value()).value() == 702 && subscriber.last_taken(0)->number == 3);
}

void refused_states() {
    auto publisher = Publisher::open(text).value();
    State state = publisher.save(2).value();
    DEMAND(publisher.restore(0, {}) == UAP_DAMAGED && publisher.restore(0, std::span(state).first(335)) == UAP_DAMAGED);
    state[100] ^= 1;
    DEMAND(publisher.restore(0, state) == UAP_DAMAGED);
    DEMAND(Subscriber::open(text).value().take(0, std::vector<std::uint8_t>(UAP_MOST_DATAGRAM_BYTES + 1)).status() == UAP_ROOM);
    DEMAND(Subscriber::open(text).value().take(0, {})->groups[0].status == UAP_HEADER_SHORT && refused(text).empty());
    DEMAND(place(text).status() == UAP_NONE && place("nonsense = 1\n")->code == 2 && place("publisher = {id = 'u8:9'}\n\n[[dataset]]\n")->line == 3);
}

}

int main() {
    restarted();
    refused_states();
    std::puts("wrapped: ok");
}
