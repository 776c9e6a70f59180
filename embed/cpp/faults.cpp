// As c/faults.c, by incr::session. What C++ allocates fails in its turn too.
#include "incr.hpp"
extern "C" {
#include "failing.h"
}
#include <cstdlib>
#include <fstream>
#include <iostream>
#include <optional>
#include <sstream>

void *operator new(size_t size) {
    if (void *block = std::malloc(size)) return block;
    throw std::bad_alloc();
}
void operator delete(void *block) noexcept { std::free(block); }
void operator delete(void *block, size_t) noexcept { std::free(block); }

// What the call gives, which is made again where it found no memory, once what is to come between was done.
template <class Call, class Between> static auto persistently(Call call, Between between) {
    for (;;) {
        failing_watch(1);
        try {
            auto given = call();
            failing_watch(0);
            return given;
        } catch (const std::bad_alloc &) {
            failing_watch(0);
            between();
        }
    }
}

static void do_nothing() {}

// Prints what the last stabilize told, if that is a later one than before.
static void print_notices(incr::session &session, uint64_t &round) {
    if (session.round() == round) return;
    round = session.round();
    for (const auto &[kind, name, before, now] : persistently([&] { return session.notices(); }, do_nothing))
        std::cout << "told " << static_cast<int>(kind) << ' ' << name << ',' << before << ',' << now << '\n';
}

static void run(const std::string &script) {
    std::optional<incr::session> session;
    uint64_t round = 0;
    persistently([&] { return session.emplace(), 0; }, do_nothing);
    for (size_t at = 0, end; (end = script.find('\n', at)) != std::string::npos; at = end + 1) {
        const std::string_view text = std::string_view(script).substr(at, end - at);
        const auto print = [&] { print_notices(*session, round); };
        std::cout << persistently([&] { return session->line(text); }, print).printed;
        print();
    }
    // (a session that is moved takes along what waits)
    incr::session moved = std::move(*session);
    std::cout << persistently([&] { return moved.rest(); }, do_nothing) << "--\n";
}

int main(int argc, char **argv) {
    std::ifstream file(argc == 2 ? argv[1] : "", std::ios::binary);
    std::stringstream whole;
    whole << file.rdbuf();
    const std::string script = whole.str();
    if (script.empty()) return 2;
    for (unsigned which = 1; which <= FAILING_MOST; which += 2) {
        long first = 0;
        do {
            failing_from(first, which);
            run(script);
        } while (first++ < failing_asked());
    }
    return std::cout.flush() ? 0 : 1;
}
