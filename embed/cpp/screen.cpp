// A price screen, as c/screen.c is. With the name of a script it runs that one; with the word `threads` four threads have a session each.
#include "incr.hpp"
#include <fstream>
#include <iostream>
#include <sstream>
#include <thread>
#include <utility>
#include <vector>

static const char *const DECLARATIONS[] = {
    "# A price screen: a price is shown where its spread is narrow, and the best of them beside it.",
    "var acme_bid int 100", "var acme_ask int 104", "var bolt_bid int 96", "var bolt_ask int 98", "var widest int 5",
    "let acme_spread add(acme_ask, neg(acme_bid))", "let bolt_spread add(bolt_ask, neg(bolt_bid))",
    "let acme pick(lt(acme_spread, widest), acme_ask, 0)", "let bolt pick(lt(bolt_spread, widest), bolt_ask, 0)",
    "let best pick(lt(acme, bolt), bolt, acme)",
    "observe acme acme", "observe bolt bolt", "observe best best", "watch acme", "watch bolt", "watch best",
};
static const std::pair<const char *, int> TICKS[] = {
    {"acme_bid", 101}, {"acme_ask", 107}, {"bolt_ask", 99}, {"bolt_bid", 97}, {"widest", 7}, {"bolt_ask", 120},
    {"acme_ask", 103}, {"acme_ask", 103}, {"cash_ask", 50},
};

// Brings the screen up to date: prints only what changed.
static void refresh(incr::session &session) {
    session.line("stabilize");
    for (const auto &[kind, name, before, now] : session.notices()) {
        std::cout << name << ": ";
        if (kind == incr::kind::change) std::cout << before << " -> ";
        std::cout << now << '\n';
    }
}

static void show_prices(incr::session &session) {
    for (const char *text : DECLARATIONS) session.line(text);
    refresh(session);
    for (const auto &[name, price] : TICKS) {
        const incr::answer answer = session.line("set " + std::string(name) + " " + std::to_string(price));
        if (answer.refused()) std::cout << name << " is no price: " << answer.words() << '\n';
        refresh(session);
    }
}

static void run_script(incr::session &session, const char *name) {
    std::ifstream file(name, std::ios::binary);
    std::stringstream whole;
    whole << file.rdbuf();
    const std::string script = whole.str();
    for (size_t at = 0; at < script.size();) {
        const size_t end = std::min(script.find('\n', at), script.size());
        std::cout << session.line(std::string_view(script).substr(at, end - at)).printed;
        at = end + 1;
    }
}

static void count_up(int from, bool &well) {
    incr::session session;
    for (const char *text : {"var x int 3", "let y add(x, 4)", "observe o y"}) session.line(text);
    for (int i = from; i < from + 10000; i++) {
        session.line("set x " + std::to_string(i));
        session.line("stabilize");
        if (session.line("show o").printed != "o = " + std::to_string(i + 4) + "\n") return;
    }
    well = true;
}

static int run_threads() {
    bool well[4] = {};
    std::vector<std::thread> threads;
    for (int i = 0; i < 4; i++) threads.emplace_back(count_up, i * 1000000, std::ref(well[i]));
    for (std::thread &thread : threads) thread.join();
    return well[0] && well[1] && well[2] && well[3] ? 0 : 1;
}

int main(int argc, char **argv) {
    if (argc > 1 && std::string_view(argv[1]) == "threads") return run_threads();
    incr::session first;
    incr::session session = std::move(first);
    try {
        first.line("stabilize");
        return 1;
    } catch (const incr::ended &) {
    }
    if (argc > 1) run_script(session, argv[1]);
    else show_prices(session);
    std::cout << session.rest(); // (what waited for want of memory)
    const bool closed = session.close() && !session.close();
    return closed && std::cout.flush() ? 0 : 1;
}
