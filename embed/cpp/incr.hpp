// Sessions of Garovymba for C++17: a class round a slot, which moves and isn't copied.
#ifndef INCR_HPP
#define INCR_HPP
#if __cplusplus < 201703L
#error "incr.hpp needs C++17"
#else
#include "incr.h"
#include <new>
#include <stdexcept>
#include <string>
#include <string_view>
#include <utility>
#include <vector>

namespace incr {

// How a line was taken: its number as in incr.h, and what that means in words; what was printed and not handed out before; and how many bytes wait beside these,
// since there was no memory for them: the next answer, or `rest`, hands them out.
struct answer {
    int32_t how;
    std::string printed;
    size_t waiting;
    bool refused() const { return INCR_IS_REFUSED(how); }
    const char *words() const { return incr_errstr(how); }
};

// What a notice tells of an observer: what it shows at first, another value, or that what it shows turned to invalid.
enum class kind : int32_t { init = INCR_INIT, change = INCR_CHANGE, invalid = INCR_INVALID };

// A notice: the observer's name, none where it ended since; what was told of it before, which only a change has; and what it shows now.
struct notice {
    incr::kind kind;
    std::string name, before, now;
};

// The session was closed or moved away, or takes no more lines.
struct ended : std::logic_error {
    using std::logic_error::logic_error;
};

class session {
public:
    session() {
        if (incr_open(&slot_) != INCR_DONE) throw std::bad_alloc();
    }
    session(session &&other) noexcept : slot_(std::exchange(other.slot_, incr_slot INCR_EMPTY)), held_(std::move(other.held_)) {
        other.held_.clear();
    }
    session &operator=(session &&other) noexcept {
        std::swap(slot_, other.slot_);
        held_.swap(other.held_);
        return *this;
    }
    session(const session &) = delete;
    session &operator=(const session &) = delete;
    ~session() { incr_close(&slot_); }

    // Gives the session its next line. Where this throws std::bad_alloc the line wasn't taken, as by INCR_NO_MEMORY. Nothing that was
    // printed is lost: what isn't handed out waits.
    answer line(std::string_view text) {
        const size_t before = held_.size();
        held_.resize(before + least_room);
        size_t count = 0;
        const int32_t how = incr_line(&slot_, text.data(), text.size(), room(before), least_room, &count);
        const size_t waiting = hold(before, least_room, count);
        if (how == INCR_NO_MEMORY) throw std::bad_alloc();
        if (how < 0) throw ended(incr_errstr(how));
        return answer{how, hand_out(), waiting};
    }

    // Hands out what waits: all of it, or it throws std::bad_alloc and all of it waits still.
    std::string rest() {
        size_t count = 0;
        incr_rest(&slot_, nullptr, 0, &count);
        if (hold(held_.size(), 0, count) > 0) throw std::bad_alloc();
        return hand_out();
    }

    // What the last accepted stabilize told, in the order in which observers were made. It can be read until the next one, also where that
    // one threw std::bad_alloc, and so can this: it changes nothing.
    std::vector<notice> notices() {
        std::vector<notice> all;
        std::string room(least_room, '\0');
        for (;;) {
            incr_told told;
            const int32_t what = read_notice(all.size(), room, told);
            if (what == INCR_NO_NOTICE) return all;
            if (what == INCR_NO_MEMORY) throw std::bad_alloc();
            if (what < 0) throw ended(incr_errstr(what));
            all.push_back(notice{kind(what), room.substr(0, told.name), room.substr(told.name, told.before),
                                 room.substr(told.name + told.before, told.now)});
        }
    }

    // How many stabilizes were accepted: the number of the one whose notices can be read.
    uint64_t round() {
        incr_told told;
        if (incr_notice(&slot_, SIZE_MAX, nullptr, 0, &told) == INCR_NO_SESSION) throw ended(incr_errstr(INCR_NO_SESSION));
        return told.round;
    }

    // Ends the session, with what waits, and says whether there was one.
    bool close() {
        held_.clear();
        return incr_close(&slot_) == INCR_DONE;
    }

private:
    static constexpr size_t least_room = 64;

    uint8_t *room(size_t from) { return reinterpret_cast<uint8_t *>(held_.data()) + from; }

    // Holds `count` bytes behind the first `before`: they stand there already where `given` is enough for them, and are fetched else. How
    // many wait, as there was no memory for them.
    size_t hold(size_t before, size_t given, size_t count) {
        if (count <= given) {
            held_.resize(before + count);
            return 0;
        }
        held_.resize(before);
        try {
            held_.resize(before + count);
        } catch (const std::bad_alloc &) {
            return count;
        }
        incr_rest(&slot_, room(before), count, &count);
        return 0;
    }

    // Reads a notice into the room, which grows for it.
    int32_t read_notice(size_t number, std::string &room, incr_told &told) {
        const auto read = [&] { return incr_notice(&slot_, number, reinterpret_cast<uint8_t *>(room.data()), room.size(), &told); };
        const int32_t what = read();
        const size_t length = told.name + told.before + told.now;
        if (length <= room.size()) return what;
        room.resize(length);
        return read();
    }

    std::string hand_out() { return std::exchange(held_, std::string()); }

    incr_slot slot_ = INCR_EMPTY;
    std::string held_; // what was read from the session and not handed out
};

} // namespace incr
#endif
#endif
