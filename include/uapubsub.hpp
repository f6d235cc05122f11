// uapubsub in C++20, over uapubsub.h: handles that close themselves, fields by their C++ type, and answers that carry their status.
// What a program owes stands at the head of uapubsub.h. Nothing here throws but `value()` of an answer that has none, and strings and
// vectors without memory. An object is used by one call at a time, on the thread that opened it.
#ifndef UAPUBSUB_HPP
#define UAPUBSUB_HPP

#include "uapubsub.h"
#include <array>
#include <cstddef>
#include <cstdint>
#include <cstring>
#include <memory>
#include <span>
#include <stdexcept>
#include <string>
#include <string_view>
#include <type_traits>
#include <utility>
#include <vector>

namespace uapubsub {

// What a call answers: a UAP_ number of uapubsub.h. It is true with UAP_OK.
class Status {
public:
    constexpr Status(std::uint32_t code = UAP_OK) : number(code) {}
    constexpr std::uint32_t code() const { return number; }
    constexpr explicit operator bool() const { return number == UAP_OK; }
    constexpr bool operator==(const Status &) const = default;
    // The read group refused the datagram: another publisher's, damaged, repeated or forged.
    constexpr bool is_refusal() const { return number >= UAP_HEADER_SHORT; }
    const char *name() const { return uap_status_name(number); }

private:
    std::uint32_t number;
};

// A value, or the status that says why there is none.
template <class T> class Result {
public:
    Result(T it) : held(std::move(it)) {}
    Result(Status why) : answered(why) {}
    explicit operator bool() const { return static_cast<bool>(answered); }
    Status status() const { return answered; }
    const T &operator*() const { return held; }
    T &operator*() { return held; }
    const T *operator->() const { return &held; }
    T *operator->() { return &held; }
    T value_or(T other) const { return answered ? held : other; }
    // The value. Where there is none a std::runtime_error has the status's name.
    const T &value() const & { return demanded(), held; }
    T &&value() && { return demanded(), std::move(held); }

private:
    void demanded() const {
        if (!answered) throw std::runtime_error(answered.name());
    }
    T held{};
    Status answered = UAP_OK;
};

// A DateTime: steps of 100 ns since 1601-01-01 UTC.
struct DateTime {
    std::int64_t ticks = 0;
    bool operator==(const DateTime &) const = default;
};

// A StatusCode (OPC 10000-4 7.39). 0 is Good.
struct StatusCode {
    std::uint32_t code = 0;
    constexpr bool is_good() const { return code >> 30 == 0; }
    bool operator==(const StatusCode &) const = default;
};

// A field of a data set, by both indexes.
struct Field {
    std::uint32_t set = 0, index = 0;
};

// What a device stores: the bytes of `Publisher::save`.
using State = std::array<std::uint8_t, UAP_STATE_BYTES>;

// A reader, by the indexes of its read group and of the reader in it.
struct Reader {
    std::uint32_t group = 0, index = 0;
};

// A writer, by the indexes of its group and of the writer in it.
struct Writer {
    std::uint32_t group = 0, index = 0;
};

namespace detail {

template <class T> inline constexpr std::uint32_t kind_of = 0;
template <> inline constexpr std::uint32_t kind_of<bool> = UAP_BOOLEAN;
template <> inline constexpr std::uint32_t kind_of<std::int8_t> = UAP_SBYTE;
template <> inline constexpr std::uint32_t kind_of<std::uint8_t> = UAP_BYTE;
template <> inline constexpr std::uint32_t kind_of<std::int16_t> = UAP_INT16;
template <> inline constexpr std::uint32_t kind_of<std::uint16_t> = UAP_UINT16;
template <> inline constexpr std::uint32_t kind_of<std::int32_t> = UAP_INT32;
template <> inline constexpr std::uint32_t kind_of<std::uint32_t> = UAP_UINT32;
template <> inline constexpr std::uint32_t kind_of<std::int64_t> = UAP_INT64;
template <> inline constexpr std::uint32_t kind_of<std::uint64_t> = UAP_UINT64;
template <> inline constexpr std::uint32_t kind_of<float> = UAP_FLOAT;
template <> inline constexpr std::uint32_t kind_of<double> = UAP_DOUBLE;
template <> inline constexpr std::uint32_t kind_of<DateTime> = UAP_DATE_TIME;
template <> inline constexpr std::uint32_t kind_of<StatusCode> = UAP_STATUS_CODE;

template <class T> inline constexpr bool is_scalar = kind_of<T> != 0;

// The word of a value, as uap_set_word takes it.
template <class T> std::uint64_t word_of(T value) {
    if constexpr (std::is_same_v<T, DateTime>) return static_cast<std::uint64_t>(value.ticks);
    else if constexpr (std::is_same_v<T, StatusCode>) return value.code;
    else if constexpr (std::is_floating_point_v<T>) {
        std::conditional_t<sizeof(T) == 4, std::uint32_t, std::uint64_t> bits = 0;
        std::memcpy(&bits, &value, sizeof bits);
        return bits;
    } else if constexpr (std::is_same_v<T, bool>) return value ? 1 : 0;
    else return static_cast<std::make_unsigned_t<T>>(value);
}

template <class T> T value_of(std::uint64_t word) {
    if constexpr (std::is_same_v<T, DateTime>) return DateTime{static_cast<std::int64_t>(word)};
    else if constexpr (std::is_same_v<T, StatusCode>) return StatusCode{static_cast<std::uint32_t>(word)};
    else if constexpr (std::is_floating_point_v<T>) {
        const auto bits = static_cast<std::conditional_t<sizeof(T) == 4, std::uint32_t, std::uint64_t>>(word);
        T value = 0;
        std::memcpy(&value, &bits, sizeof value);
        return value;
    } else if constexpr (std::is_same_v<T, bool>) return word != 0;
    else return static_cast<T>(static_cast<std::make_unsigned_t<T>>(word));
}

// A field of text or bytes, which `get` lays into a buffer of the longest cap.
template <class Bytes, class Get> Result<Bytes> laid(Get get) {
    Bytes bytes(256, 0);
    std::size_t length = 0;
    if (const Status status = get(bytes.data(), bytes.size(), &length); !status) return status;
    bytes.resize(length);
    return bytes;
}

// What both sides have: a handle, closed with its object, and the names of the configuration. The handle stays where it is, so an object
// may be moved.
class Side {
public:
    Result<Field> field(const char *dataset, const char *name) const {
        Field it;
        if (const Status status = uap_dataset_index(handle.get(), dataset, &it.set); !status) return status;
        if (const Status status = uap_field_index(handle.get(), it.set, name, &it.index); !status) return status;
        return it;
    }
    Result<uap_field> info(Field of) const { return told<uap_field>([&](uap_field *it) { return uap_field_info(handle.get(), of.set, of.index, it); }); }
    // The handle, for the calls of uapubsub.h that have no other form here.
    uap_handle *raw() const { return handle.get(); }

protected:
    struct Close {
        void operator()(uap_handle *it) const {
            uap_close(it);
            delete it;
        }
    };
    using Handle = std::unique_ptr<uap_handle, Close>;

    Side() = default;
    explicit Side(Handle opened) : handle(std::move(opened)) {}

    template <class Open> static Result<Handle> opened(std::string_view text, Open open) {
        Handle it(new uap_handle UAP_CLOSED_HANDLE);
        if (const Status status = open(it.get(), text.data(), text.size()); !status) return status;
        return it;
    }

    // A pointer to no bytes is null in C++, and a call takes none.
    static const std::uint8_t *bytes_of(const void *it) { return static_cast<const std::uint8_t *>(it == nullptr ? "" : it); }

    template <class T, class Call> static Result<T> told(Call call) {
        T it = {};
        if (const Status status = call(&it); !status) return status;
        return it;
    }

    Handle handle;
};

}

// The line that `uapubsub check` prints of a configuration that is refused; empty where it is accepted.
inline std::string refused(std::string_view text) {
    std::string line(256, 0);
    std::size_t written = 0;
    uap_config_check(text.data(), text.size(), line.data(), line.size(), &written);
    line.resize(written);
    return line;
}

// Where a configuration that is refused is at fault. UAP_NONE: it is none that is refused.
inline Result<uap_place> place(std::string_view text) {
    uap_place it = {};
    if (const Status status = uap_config_place(text.data(), text.size(), &it); !status) return status;
    return it;
}

// The sending side.
class Publisher : public detail::Side {
public:
    Publisher() = default;
    static Result<Publisher> open(std::string_view text) {
        auto handle = opened(text, uap_publisher_open);
        if (!handle) return handle.status();
        return Publisher(std::move(*handle));
    }

    // Sets a field to a value of its own type. A turn reads what was set last.
    template <class T> requires detail::is_scalar<T> Status set(Field of, T value) {
        return uap_set_word(raw(), of.set, of.index, detail::kind_of<T>, detail::word_of(value));
    }
    Status set(Field of, const char *text) { return uap_set_text(raw(), of.set, of.index, text); }
    Status set(Field of, const std::string &text) { return uapubsub_set_text(raw(), of.set, of.index, bytes_of(text.data()), text.size()); }
    Status set(Field of, std::string_view text) { return uapubsub_set_text(raw(), of.set, of.index, bytes_of(text.data()), text.size()); }
    Status set(Field of, std::span<const std::uint8_t> bytes) { return uapubsub_set_bytes(raw(), of.set, of.index, bytes_of(bytes.data()), bytes.size()); }
    Status set(Field of, const uap_guid &guid) { return uap_set_guid(raw(), of.set, of.index, &guid); }
    Status set_status(Field of, StatusCode status) { return uap_set_field_status(raw(), of.set, of.index, status.code); }

    // The own value of a field, as it was set last.
    template <class T> Result<T> own(Field of) const {
        if constexpr (detail::is_scalar<T>) {
            const auto word = told<std::uint64_t>([&](std::uint64_t *it) { return uap_own_word(raw(), of.set, of.index, detail::kind_of<T>, it); });
            return word ? Result<T>(detail::value_of<T>(*word)) : Result<T>(word.status());
        } else if constexpr (std::is_same_v<T, std::string>)
            return detail::laid<T>([&](char *at, std::size_t room, std::size_t *length) { return uap_own_text(raw(), of.set, of.index, at, room, length); });
        else if constexpr (std::is_same_v<T, uap_guid>) return told<T>([&](T *it) { return uap_own_guid(raw(), of.set, of.index, it); });
        else return detail::laid<T>([&](void *at, std::size_t room, std::size_t *length) { return uap_own_bytes(raw(), of.set, of.index, at, room, length); });
    }

    // The next datagram that is due, laid into the buffer: the part of it that is to be sent. UAP_NONE: no other is due. UAP_ROOM: it waits.
    Result<std::span<const std::uint8_t>> next(std::uint64_t now_ms, std::span<std::uint8_t> buffer) {
        std::size_t length = 0;
        if (const Status status = uap_publisher_next(raw(), now_ms, buffer.data(), buffer.size(), &length); !status) return status;
        return std::span<const std::uint8_t>(buffer.data(), length);
    }
    // The first moment from now on at which `next` has something to do. UAP_NONE: never.
    Result<std::uint64_t> due(std::uint64_t now_ms) const { return told<std::uint64_t>([&](std::uint64_t *it) { return uap_publisher_due(raw(), now_ms, it); }); }
    // The group that the last datagram of `next` is of.
    Result<std::uint32_t> group() const { return told<std::uint32_t>([&](std::uint32_t *it) { return uap_publisher_group(raw(), it); }); }
    Status may_turn(std::uint32_t group) const { return uap_group_may_turn(raw(), group); }

    Result<Writer> writer(const char *group, const char *name) const {
        Writer it;
        if (const Status status = uap_group_index(raw(), group, &it.group); !status) return status;
        if (const Status status = uap_writer_index(raw(), it.group, name, &it.index); !status) return status;
        return it;
    }
    Status enable(Writer it) { return uap_writer_enable(raw(), it.group, it.index); }
    Status disable(Writer it) { return uap_writer_disable(raw(), it.group, it.index); }

    // The token in use of a key group, and the number used last under it.
    Result<std::pair<std::uint32_t, std::uint32_t>> standing(std::uint32_t keygroup) const {
        return told<std::pair<std::uint32_t, std::uint32_t>>([&](auto *it) { return uap_publisher_standing(raw(), keygroup, &it->first, &it->second); });
    }
    Status renew(std::uint32_t keygroup, std::span<const uap_key_set> sets) { return uap_publisher_renew(raw(), keygroup, sets.data(), sets.size()); }

    // The bytes to store: numbers so far ahead. From now on `next` has UAP_UNSTORED where a datagram's number isn't in store.
    [[nodiscard]] Result<State> save(std::uint32_t ahead) {
        State it = {};
        std::size_t length = 0;
        if (const Status status = uap_publisher_save(raw(), ahead, it.data(), it.size(), &length); !status) return status;
        return it;
    }
    // The bytes of the last `save` are in store.
    [[nodiscard]] Status stored() { return uap_publisher_stored(raw()); }
    // Whether to save and store now.
    bool must_store() const { return uap_publisher_must_store(raw()) == UAP_OK; }
    // Goes on after stored bytes.
    [[nodiscard]] Status restore(std::uint64_t now_ms, std::span<const std::uint8_t> bytes) { return uap_publisher_restore(raw(), now_ms, bytes_of(bytes.data()), bytes.size()); }
    // The first data message of a writer has this number. UAP_BEGUN: its group had a turn.
    Status begin_at(Writer it, std::uint16_t number) { return uap_writer_begin_at(raw(), it.group, it.index, number); }

private:
    explicit Publisher(Handle it) : Side(std::move(it)) {}
};

// The receiving side.
class Subscriber : public detail::Side {
public:
    Subscriber() = default;
    static Result<Subscriber> open(std::string_view text) {
        auto handle = opened(text, uap_subscriber_open);
        if (!handle) return handle.status();
        return Subscriber(std::move(*handle));
    }

    Result<Reader> reader(const char *group, const char *name) const {
        Reader it;
        if (const Status status = uap_read_group_index(raw(), group, &it.group); !status) return status;
        if (const Status status = uap_reader_index(raw(), it.group, name, &it.index); !status) return status;
        return it;
    }
    Result<std::size_t> read_groups() const { return told<std::size_t>([&](std::size_t *it) { return uap_read_group_count(raw(), it); }); }

    // A datagram came to all read groups. The bytes stay.
    Result<uap_takings> take(std::uint64_t now_ms, std::span<const std::uint8_t> bytes) {
        return told<uap_takings>([&](uap_takings *it) { return uap_subscriber_take(raw(), now_ms, bytes_of(bytes.data()), bytes.size(), it); });
    }
    // A datagram came to one read group, which may decrypt its bytes in place.
    Result<uap_taken> datagram(std::uint32_t group, std::uint64_t now_ms, std::span<std::uint8_t> bytes) {
        return told<uap_taken>([&](uap_taken *it) { return uap_subscriber_datagram(raw(), group, now_ms, bytes.data(), bytes.size(), it); });
    }
    Status expire(std::uint64_t now_ms) { return uap_subscriber_expire(raw(), now_ms); }
    // The first moment from now on at which a timeout passes: call `expire` then. UAP_NONE: never.
    Result<std::uint64_t> due(std::uint64_t now_ms) const { return told<std::uint64_t>([&](std::uint64_t *it) { return uap_subscriber_due(raw(), now_ms, it); }); }

    // A field of the row that a reader holds. UAP_NONE: it holds none.
    template <class T> Result<T> get(Reader at, Field of) const {
        if constexpr (detail::is_scalar<T>) {
            const auto word = told<std::uint64_t>([&](std::uint64_t *it) { return uap_get_word(raw(), at.group, at.index, of.index, detail::kind_of<T>, it); });
            return word ? Result<T>(detail::value_of<T>(*word)) : Result<T>(word.status());
        } else if constexpr (std::is_same_v<T, std::string>)
            return detail::laid<T>([&](char *to, std::size_t room, std::size_t *length) { return uap_get_text(raw(), at.group, at.index, of.index, to, room, length); });
        else if constexpr (std::is_same_v<T, uap_guid>) return told<T>([&](T *it) { return uap_get_guid(raw(), at.group, at.index, of.index, it); });
        else return detail::laid<T>([&](void *to, std::size_t room, std::size_t *length) { return uap_get_bytes(raw(), at.group, at.index, of.index, to, room, length); });
    }
    Result<StatusCode> status(Reader at, Field of) const {
        return told<StatusCode>([&](StatusCode *it) { return uap_get_field_status(raw(), at.group, at.index, of.index, &it->code); });
    }

    // UAP_OK: the reader holds a row that was confirmed at most `bound_ms` ago. UAP_STALE: an older one. UAP_NONE: none.
    Status is_fresh(Reader at, std::uint64_t now_ms, std::uint64_t bound_ms) const { return uap_reader_is_fresh(raw(), at.group, at.index, now_ms, bound_ms); }
    Result<std::uint64_t> age(Reader at, std::uint64_t now_ms) const {
        return told<std::uint64_t>([&](std::uint64_t *it) { return uap_reader_age(raw(), at.group, at.index, now_ms, it); });
    }
    Result<std::uint16_t> number(Reader at) const { return told<std::uint16_t>([&](std::uint16_t *it) { return uap_reader_number(raw(), at.group, at.index, it); }); }
    // Why a reader waits, or waited before the row that it holds: UAP_WHY_..
    std::uint32_t why(Reader at) const {
        std::uint32_t it = UAP_WHY_START;
        uap_reader_why(raw(), at.group, at.index, &it);
        return it;
    }
    Result<uap_fault> last_fault(Reader at) const { return told<uap_fault>([&](uap_fault *it) { return uap_reader_last_fault(raw(), at.group, at.index, it); }); }
    Result<uap_passed> passed(Reader at) const { return told<uap_passed>([&](uap_passed *it) { return uap_reader_passed(raw(), at.group, at.index, it); }); }
    Result<uap_received> received(Reader at) const { return told<uap_received>([&](uap_received *it) { return uap_reader_received(raw(), at.group, at.index, it); }); }
    // The token and the number of the last datagram that a read group accepted under a security header.
    Result<uap_last_taken> last_taken(std::uint32_t group) const { return told<uap_last_taken>([&](uap_last_taken *it) { return uap_read_group_last_taken(raw(), group, it); }); }
    Result<uap_refused> refused(std::uint32_t group) const { return told<uap_refused>([&](uap_refused *it) { return uap_read_group_refused(raw(), group, it); }); }
    Status enable(Reader it) { return uap_reader_enable(raw(), it.group, it.index); }
    Status disable(Reader it) { return uap_reader_disable(raw(), it.group, it.index); }
    Status renew(std::uint32_t group, std::span<const uap_key_set> sets) { return uap_subscriber_renew(raw(), group, sets.data(), sets.size()); }

private:
    explicit Subscriber(Handle it) : Side(std::move(it)) {}
};

}

#endif
