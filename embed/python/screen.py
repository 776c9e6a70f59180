"""A price screen, as c/screen.c is. With the name of a script it runs that one instead, and prints the transcript."""

import sys

import incr

DECLARATIONS = """\
# A price screen: a price is shown where its spread is narrow, and the best of them beside it.
var acme_bid int 100
var acme_ask int 104
var bolt_bid int 96
var bolt_ask int 98
var widest int 5
let acme_spread add(acme_ask, neg(acme_bid))
let bolt_spread add(bolt_ask, neg(bolt_bid))
let acme pick(lt(acme_spread, widest), acme_ask, 0)
let bolt pick(lt(bolt_spread, widest), bolt_ask, 0)
let best pick(lt(acme, bolt), bolt, acme)
observe acme acme
observe bolt bolt
observe best best
watch acme
watch bolt
watch best
"""
TICKS = (("acme_bid", 101), ("acme_ask", 107), ("bolt_ask", 99), ("bolt_bid", 97), ("widest", 7), ("bolt_ask", 120),
         ("acme_ask", 103), ("acme_ask", 103), ("cash_ask", 50))


def refresh(session):
    """Brings the screen up to date: prints only what changed."""
    session.line("stabilize")
    for kind, name, before, now in session.notices():
        print("%s: %s" % (name, "%s -> %s" % (before, now) if kind is incr.Kind.CHANGE else now))


def show_prices(session):
    for line in DECLARATIONS.splitlines():
        session.line(line)
    refresh(session)
    for name, price in TICKS:
        try:
            session.line("set %s %d" % (name, price))
        except incr.Refused as refused:
            print("%s is no price: %s" % (name, refused.words))
        refresh(session)


def main():
    with incr.Session() as session:
        if len(sys.argv) > 1:
            with open(sys.argv[1], "rb") as script:
                sys.stdout.buffer.write(session.run(script.read()))
        else:
            show_prices(session)
    try:
        session.line("stabilize")
    except incr.Closed:
        return 0
    return 1


if __name__ == "__main__":
    sys.exit(main())
