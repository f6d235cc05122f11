// The plant gateway of a drive: it reads the drive's data sets, logs each row that it holds or why it waits, counts what is lost and what is
// passed over, and publishes set points. In C++20 with POSIX and libuapubsub_c.a.
//
// usage: gateway CONFIG PORT PEER-PORT KEYS     (both ports of 127.0.0.1; KEYS as plant.h has it)
//
// CONFIG.state has what it used of its keys' numbers, and CONFIG.state.lock keeps a second gateway away. It runs until it is killed.
#include "uapubsub.hpp"
#include "plant.h"
#include <fstream>
#include <iostream>
#include <iterator>

namespace {

using uapubsub::Field, uapubsub::Publisher, uapubsub::Reader, uapubsub::Status, uapubsub::Subscriber;

// A round, at most half the shortest interval; how many datagrams it takes at most; how often counts are told; how long a set point stands; and
// how old the drive's health may be with which it is let run, and how hot it may be.
constexpr std::uint64_t round_ms = 10, most_a_round = 64, told_ms = 1000, order_ms = 1500, health_ms = 2000;
constexpr float too_hot = 80;

// How many numbers are stored ahead: a restart skips more than 16,384 of them, so that readers begin anew. And after how many datagrams they are
// stored anew at the latest: a message number is stored at most 8,192 ahead, and `must_store` doesn't look at those.
constexpr std::uint32_t ahead = 65536, stored_each = 4096;

void demand(Status status, const std::string &else_said) {
    if (!status) throw std::runtime_error(else_said + ": " + status.name());
}

std::string text_of(const char *name) {
    std::ifstream file(name, std::ios::binary);
    std::string text((std::istreambuf_iterator<char>(file)), std::istreambuf_iterator<char>());
    if (!file || text.empty()) throw std::runtime_error("cannot read the configuration");
    if (const std::string line = uapubsub::refused(text); !line.empty()) throw std::runtime_error(line);
    return text;
}

// A reader, the row of it that was logged last or why it waited then, and how many datagrams of its group were refused, the last one why. What a
// read group counts as refused are also those of the other groups, which come at the same port.
struct Watch {
    Reader reader;
    std::uint32_t set = 0;
    std::string name, told;
    std::uint64_t refused = 0;
    Status last_refusal;
};

class Gateway {
public:
    Gateway(const char *config, std::uint16_t port, std::uint16_t peer, const char *keys_name)
        : Gateway(text_of(config), std::string(config) + ".state") {
        keys.name = keys_name;
        if (uap_posix_udp_open(&udp, "127.0.0.1", port, "127.0.0.1", peer, 0) != 0) throw std::runtime_error("cannot open the port");
        if (!renew(plant_now())) throw std::runtime_error("no keys");
        restore();
    }
    ~Gateway() { uap_posix_udp_close(&udp); }
    Gateway(const Gateway &) = delete;
    Gateway &operator=(const Gateway &) = delete;

    [[noreturn]] void run() {
        for (;;) {
            const int waited = uap_posix_wait(&udp, uap_posix_now_ms() + round_ms);
            if (waited != 0 && waited != EINTR) throw std::runtime_error("cannot wait");
            const std::uint64_t now = plant_now();
            renew(now);
            receive(now);
            for (Watch &it : watches) show(it);
            order(now);
            publish(now);
            if (now >= tell_at) count(now);
        }
    }

private:
    Gateway(const std::string &text, std::string state_name)
        : publisher(Publisher::open(text).value()), subscriber(Subscriber::open(text).value()), state(std::move(state_name)),
          number(own("order")), speed(own("speed")), enable(own("enable")), issued_at(own("issued_at")),
          health(subscriber.reader("slow", "health").value()), celsius(subscriber.field("health", "celsius").value()) {
        const auto groups = static_cast<std::uint32_t>(subscriber.read_groups().value());
        for (std::uint32_t group = 0; group < groups; group++) watch(group);
    }

    Field own(const char *name) const { return publisher.field("setpoint", name).value(); }

    // The readers of a read group. A reader has the name of its data set.
    void watch(std::uint32_t group) {
        std::size_t count = 0;
        char name[UAP_NAME_ROOM];
        demand(uap_reader_count(subscriber.raw(), group, &count), "cannot count the readers");
        for (std::uint32_t index = 0; index < count; index++) {
            Watch it;
            it.reader = {group, index};
            demand(uap_reader_name(subscriber.raw(), group, index, name, sizeof name), "cannot name a reader");
            demand(uap_dataset_index(subscriber.raw(), name, &it.set), "a reader hasn't the name of its data set");
            it.name = name;
            watches.push_back(it);
        }
    }

    // ---- keys and numbers

    // Both sides go on with new keys, but a read group without keys.
    bool renew(std::uint64_t now) {
        if (!plant_keys_came(&keys, now)) return false;
        const std::span sets(keys.sets, keys.count);
        Status status = publisher.renew(0, sets);
        const std::size_t groups = subscriber.read_groups().value_or(0);
        for (std::uint32_t group = 0; group < groups && status; group++) {
            status = subscriber.renew(group, sets);
            if (status == UAP_INDEX) status = UAP_OK;
        }
        plant_log("keys %s: tokens %" PRIu32 " to %" PRIu32, status.name(), sets.front().token, sets.back().token);
        return bool(status);
    }

    // Has the disk keep what is used, and a reserve, before any of it is sent.
    void store() {
        const auto saved = publisher.save(ahead).value();
        if (uap_posix_write(state.c_str(), saved.data(), saved.size(), 0600) != 0) throw std::runtime_error("cannot store the state");
        demand(publisher.stored(), "cannot save the state");
        stored = sent;
    }

    // Goes on after the life before, under the keys that it has now.
    void restore() {
        uapubsub::State saved;
        std::size_t length = 0;
        if (uap_posix_lock((state + ".lock").c_str()) != 0) throw std::runtime_error("another gateway has this state");
        const int fault = uap_posix_read(state.c_str(), saved.data(), saved.size(), &length);
        if (fault != 0 && fault != ENOENT) throw std::runtime_error("cannot read the state");
        if (fault == 0) demand(publisher.restore(plant_now(), std::span(saved).first(length)), "cannot go on after the state");
        plant_log("begins %s", fault == 0 ? "after its state" : "without a state");
        store();
    }

    // ---- what comes

    void receive(std::uint64_t now) {
        std::size_t length = 0;
        for (std::uint64_t i = 0; i < most_a_round && uap_posix_receive(&udp, datagram.data(), datagram.size(), &length) == 0; i++) {
            const auto takings = subscriber.take(now, std::span(datagram).first(length)).value();
            for (Watch &it : watches) note(it, takings.groups[it.reader.group].status);
        }
        demand(subscriber.expire(now), "cannot subscribe");
    }

    static void note(Watch &it, Status answer) {
        if (!answer.is_refusal() || answer == UAP_NOT_OURS) return;
        it.refused++;
        it.last_refusal = answer;
    }

    // The row of a reader, or why it waits, where that is another than before.
    void show(Watch &it) {
        const plant_row row = {subscriber.raw(), false, it.set, it.reader.group, it.reader.index};
        char line[PLANT_ROW_BYTES];
        const Status status = plant_row_text(&row, line, sizeof line);
        const std::string told = status ? "row " + it.name + " " + line : "waits " + it.name + " " + uap_why_name(subscriber.why(it.reader));
        if (status != UAP_NONE) demand(status, "cannot read the row of " + it.name);
        if (told != it.told) plant_log("%s", told.c_str());
        it.told = told;
    }

    // Of each reader what was lost and passed over, of its read group what was refused, and of what is sent token and number.
    void count(std::uint64_t now) {
        tell_at = now + told_ms;
        for (const Watch &it : watches) {
            const auto received = subscriber.received(it.reader).value();
            const auto passed = subscriber.passed(it.reader).value();
            const auto fault = subscriber.last_fault(it.reader).value();
            plant_log("count %s lost %" PRIu64 " stored %" PRIu64 " passed %" PRIu64 " refused %" PRIu64 " %s bad %" PRIu64 " %s", it.name.c_str(),
                      received.lost, received.stored, passed.older + passed.other_major + passed.unnumbered, it.refused, it.last_refusal.name(), fault.bad,
                      uap_fault_name(fault.fault));
        }
        const auto standing = publisher.standing(0).value();
        plant_log("sent %lu failed %lu token %" PRIu32 " number %" PRIu32, sent, failed, standing.first, standing.second);
    }

    // ---- what goes out

    // Sets a set point as a whole, before the next turn. The drive may run while its health is known and it isn't too hot.
    void order(std::uint64_t now) {
        const bool is_well = bool(subscriber.is_fresh(health, now, health_ms)) && subscriber.get<float>(health, celsius).value_or(too_hot) < too_hot;
        demand(publisher.set(number, static_cast<std::uint32_t>(now / round_ms)), "cannot set the order");
        demand(publisher.set(speed, static_cast<float>(500 + now / order_ms % 5 * 250)), "cannot set the speed");
        demand(publisher.set(enable, is_well), "cannot set the enabling");
        demand(publisher.set(issued_at, uapubsub::DateTime{plant_date_time(now)}), "cannot set the time");
        const plant_row row = {publisher.raw(), true, number.set, 0, 0};
        char line[PLANT_ROW_BYTES];
        demand(plant_row_text(&row, line, sizeof line), "cannot read the own row");
        plant_log("set setpoint %s", line);
    }

    // Sends what is due. A datagram that the system doesn't take is lost, as it may be on its way.
    void publish(std::uint64_t now) {
        if (publisher.must_store() || sent - stored >= stored_each) store();
        for (;;) {
            const auto next = publisher.next(now, datagram);
            if (next) (uap_posix_send(&udp, next->data(), next->size()) == 0 ? sent : failed)++;
            else if (next.status() == UAP_UNSTORED) store();
            else if (next.status() == UAP_NONE || next.status() == UAP_SPENT) return; // spent until a later token comes, which the counts show
            else throw std::runtime_error(std::string("cannot publish: ") + next.status().name());
        }
    }

    Publisher publisher;
    Subscriber subscriber;
    std::string state;
    Field number, speed, enable, issued_at;
    Reader health;
    Field celsius;
    std::vector<Watch> watches;
    plant_keys keys = {};
    uap_posix_udp udp = {-1, {}};
    std::vector<std::uint8_t> datagram = std::vector<std::uint8_t>(UAP_MOST_DATAGRAM_BYTES);
    std::uint64_t tell_at = 0;
    unsigned long sent = 0, failed = 0, stored = 0;
};

}

int main(int count, char **words) {
    try {
        if (count != 5) throw std::runtime_error("the words are CONFIG PORT PEER-PORT KEYS");
        std::setvbuf(stdout, nullptr, _IOLBF, 0);
        Gateway(words[1], plant_port(words[2]), plant_port(words[3]), words[4]).run();
    } catch (const std::exception &error) {
        std::cerr << "gateway: " << error.what() << "\n";
        return 1;
    }
}
