#!/usr/bin/env python3
"""Counts, in crates/*/src, the places that each point of docs/DESIGN-PASS.md speaks of.

usage: places.py [--commit COMMIT] [--list POINT | --names POINT]

Without a word: a line for each rule of points 1 to 7, with how many places it finds, and for each point how many that are in all (one
that two rules find counts once). Point 8 is in proofs/; the page has the commands for it. place_rules.py has the rules.
--list POINT     one line for each place of the point: rule, file:line, name
--names POINT    the same by rule and crate, compact, as the page shows it
--commit COMMIT  counts at a commit (through git archive) in place of the files as they are

A rule only reads the text; what it finds is a place to look at. The C interface (adapter, adapter_c, host_calls) is left out of
points 1, 2 and 5. Exit status: 0 counted, 1 nothing to count or no such commit, 2 wrong words.
"""

import argparse
import collections
import signal
import sys

sys.dont_write_bytecode = True

import rt_source
from place_rules import GROUPED, RULES

C_INTERFACE = ("adapter", "adapter_c", "host_calls")


def groups(items, keys, least):
    found = collections.defaultdict(list)
    for x in items:
        for key in keys(x):
            found[key].append(x)
    return sorted(((k, v) for k, v in found.items() if len(v) >= least), key=lambda g: -len(g[1]))


def count(fns, types):
    """(point, rule, groups of places) of each rule; a rule that groups nothing has one group."""
    for point, name, of, test, *least in RULES + GROUPED:
        items = [x for x in (fns if of == "fn" else types) if point not in (1, 2, 5) or x.crate not in C_INTERFACE]
        yield point, name, groups(items, test(items), least[0]) if least else [("", [x for x in items if test(x)])]


def by_crate(places, numbers):
    crates = collections.defaultdict(list)
    for x in places:
        crates[x.crate].append(x.name)
    return "; ".join(c + " " + (str(len(names)) if numbers else ", ".join(names)) for c, names in crates.items())


def show_counts(found):
    for point in sorted({p for p, _, _ in found}):
        of_point = [(name, made) for p, name, made in found if p == point]
        for name, made in of_point:
            places = {x[1:3] for _, v in made for x in v}
            many = "%d groups of " % len(made) if any(k for k, _ in made) else ""
            print("%d  %s: %s%d places" % (point, name, many, len(places)))
        print("%d  in all: %d places" % (point, len({x[1:3] for _, made in of_point for _, v in made for x in v})))


def show_places(found, compact):
    for _, name, made in found:
        for key, places in made:
            what = name + (" `%s`" % key if name in ("fact", "parameters together") else "")
            if compact:
                print("- %s (%d): %s" % (what, len(places), by_crate(places, name == "fact")))
            else:
                print("\n".join("%s  %s:%d  %s" % (what, x.file, x.line, x.name) for x in places))


def main():
    words = argparse.ArgumentParser(description=__doc__, usage=argparse.SUPPRESS,
                                    formatter_class=argparse.RawDescriptionHelpFormatter)
    words.add_argument("--commit")
    words.add_argument("--list", type=int, choices=[1, 2, 3, 4, 5, 6, 7], metavar="POINT")
    words.add_argument("--names", type=int, choices=[1, 2, 3, 4, 5, 6, 7], metavar="POINT")
    asked = words.parse_args()
    if asked.list and asked.names:
        words.error("--list or --names, not both")
    fns, types = rt_source.read(rt_source.committed_files(asked.commit) if asked.commit else rt_source.working_files())
    if not fns:
        sys.exit("places.py: no crates/*/src here: it runs at the top of the repository")
    found = sorted(count(fns, types), key=lambda r: r[0])
    point = asked.list or asked.names
    if point:
        show_places([r for r in found if r[0] == point], bool(asked.names))
    else:
        show_counts(found)


if __name__ == "__main__":
    signal.signal(signal.SIGPIPE, signal.SIG_DFL)  # a reader of the list may stop early
    main()
