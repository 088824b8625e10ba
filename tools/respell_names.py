#!/usr/bin/env python3
"""Respells this repository's own names as today's toolchain spells them.

usage: python3 tools/respell_names.py    at the top of the repository, once, after the toolchain's own script

Words, lemmas, fields and constructors go to snake case, facts and types to camel case: 'rows-from' becomes
'rows_from', 'Well-formed' becomes 'WellFormed'. Only the names listed below are touched, in the specs, the proofs
and the contracts; names that the toolchain makes from the code ('loop-i-preserved') keep their dashes.
It stops where two names would fall together.
"""

import os
import re
import sys

NAMES = """
    All-reached Bad-head Bad-row Exactly-reached Head-fits In-order No-range No-root No-states
    Row-fault Step-fits Steps-fit Well-formed after-closed after-distinct after-exactly
    after-reached among-at among-from-holds among-left among-right and-true apart-at
    appended-length begin-step begin-within begins-at begins-from begins-in begins-inside begins-of
    between-whole channel-inside channel-of checked-err checked-head checked-ok checked-same
    chosen-below chosen-few chosen-first chosen-front chosen-passes chosen-same chosen-some
    chosen-sum chosen-undoes closed-fit closed-push cond-some continue-receive count-above
    count-at-most count-fail count-first count-more count-no-more count-pass count-rises count-step
    count-sum counted-append counted-one counted-part cut-refused degree-is degree-of
    degree-spelling degree-within digits-after each-here each-inside each-replicate each-weaker
    err-tells exactly-of explored-all explored-begun explored-none fault-ends fault-first
    fault-refused fault-stops few-below few-states few-values first-row first-spelt follow-begin
    follow-receive from-inside from-outside from-reached front-after front-among front-key
    front-more front-more-moves front-more-values front-moves front-next front-refl front-take
    front-tells front-trans front-values full-list full-value head-fits head-from-test held-list
    held-value holding-all holding-at holding-first holding-front holding-take holds-from-among
    in-front in-order-before in-order-push is-receive key-among key-distinct key-reached kind-from
    kind-of label-fits label-from label-text landing-each landing-inside landing-there
    landing-within landings-inside lands-inside largest-above largest-below largest-is largest-met
    largest-same many-words may-begin may-follow mendable-front mendable-less mendable-take
    mendable-whole moves-among moves-keep new-list new-value next-head next-value no-more-than
    no-state no-step-lands no-steps-there no-value-lands none-begun none-behind none-counted
    none-in-front not-among not-held ok-tells one-landing or-expected outnumber-of parsed-number
    part-between part-degree part-row part-within picked-back picked-front picked-one picked-part
    position-tells range-or-one reached-rising read-at-cut read-at-none read-at-some read-at-whole
    read-measured read-on read-on-none read-on-some read-refused read-widest read-width
    receive-step receiving-more refusal-number refused-unformed root-inside row-begins row-later
    row-receive row-to rows-each rows-from rows-from-append rows-leave rows-length run-append
    run-landings run-rows run-some run-spelt run-steps same-found same-label says-more says-table
    setting-of settled-next short-of so-far-is some-state some-value sorted-next spelling-append
    spelling-lawful spelling-push spelling-shows spelling-sorted spells-inside spells-lawful
    spells-of spells-shows spells-sorted split-splits splits-order stands-alone stands-back
    stands-begin stands-continue stands-follow stands-front stands-label stands-landing
    stands-mendable stands-next stands-receive stands-run stands-single state-steps step-counted
    step-elsewhere step-holds step-list step-picked step-refused step-stands steps-at
    steps-at-append steps-at-here steps-at-none steps-at-other steps-at-pass steps-at-push
    steps-fit steps-here steps-other still-head still-shown still-spells stuck-refused
    table-meaning taken-leads test-first test-from test-from-head test-second to-outside told-row
    unstepped-label unstepped-lands unvalued-lands value-count value-some values-among values-keep
    values-next well-formed-again width-met with-key with-moves with-successors word-past
    word-there words-in written-begun written-first written-front written-past
""".split()


def respelled(name):
    if name[0].isupper():
        return "".join(word[0].upper() + word[1:] for word in name.split("-"))
    return name.replace("-", "_")


def files():
    for folder, below, names in os.walk("crates"):
        below[:] = sorted(f for f in below if f != "out")
        for name in sorted(names):
            if name.endswith((".rt", ".antt")):
                yield os.path.join(folder, name)


def main():
    to = {name: respelled(name) for name in NAMES}
    if len(set(to.values())) != len(NAMES):
        sys.exit("respell_names: two names fall together")
    whole = re.compile(r"(?<![\w'-])(?:" + "|".join(sorted(map(re.escape, NAMES), key=len, reverse=True)) + r")(?![\w'-])")
    changed = 0
    for path in files():
        with open(path, encoding="utf-8") as f:
            old = f.read()
        new = whole.sub(lambda m: to[m.group(0)], old)
        if new != old:
            changed += 1
            with open(path, "w", encoding="utf-8") as f:
                f.write(new)
    print(f"respell_names: {changed} files changed")


main()
