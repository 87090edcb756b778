#!/usr/bin/env python3
"""Brings the names of specs/ and proofs/ to one spelling: functions and lemmas in snake case, types and facts in camel case.

usage: python3 tools/respell.py      at the top of the repository, once, on text that has the older spelling

It turns whole names alone, in code and in must-fail edits; comments and strings of src/ stay as they are. Names that Rattle
makes, as loop-i-preserved, are not in the list.
"""

import os
import re

# a dash would give a name that something else has
OTHERWISE = {
    "first-link": "first_link_of",  # the function first_link
    "format-of": "format_of_code",  # the function format_of
    "Not-innermost": "IsNotInnermost",  # the refusal NotInnermost
    # lemmas beside the functions whose contracts they prove
    "catches-ordered": "catches_ordered_lem",
    "handler-counts": "handler_counts_lem",
    "landing-lists": "landing_lists_lem",
    "refusals-listed": "refusals_listed_lem",
    "worked-runs": "worked_runs_lem",
    # lemmas about W
    "W-collect": "w_collect",
    "W-make": "w_make",
    "W-release": "w_release",
    "W-same": "w_same",
}

NAMES = """
Answers-in-turn Begun-right Bounds-kept Byte-written Cannot-keep Catches-ordered Cleanup-law Counts-right Ended-right
Ends-last Frame-at From-chain From-link Guest-of Handler-counts Handler-law In-turn Landing-lists Leaf-over Lets-pass
Line-added Lists-right Meets-broken No-begun No-cleanup No-handler-above Not-broken Not-innermost Numbers-law Of-force
Of-raise One-more Pair-of Passes-fence Promise-kept Quiet-without-frames Raiser-cause Read-whole Record-of Refusals-leave
Refusals-listed Refusals-right Refused-without-frames Right-outcome Room-below Room-for Room-kept Says-all Says-language
Says-leaf Says-line Says-question Says-release Says-statement Says-table Search-cause Shut-out Sites-law Stopped-at
W-collect W-make W-release W-same With-raiser Words-of Worked-cases Worked-runs above-handler above-kept-none above-none
above-twice account-of add-answer after-all always-good and-false and-true another-begins answered-by answers-in-turn
apt-good arrival-ends arrives-empty ask-down-to asks-cause asks-on asks-settled at-begin at-end at-landing at-most-four
at-nothing at-start at-stop bare-catches bare-frames before-all before-raising begin-counts begin-follows begin-right
begins-some begun-catches begun-newest below-twice book-at book-of bounds-kept broken-lands built-verdict by-its-end by-list
by-step bytes-at bytes-done bytes-onward catch-has catch-named catches-leave catches-ordered catches-room caught-in
caught-none caught-same caught-self caught-there caught-up caught-within cause-asks cause-below cause-number cause-search
chain-at chain-more-at clean-up cleans-in cleanup-at cleanup-landed cleanup-law cleanup-pad clear-force close-pops
closed-one closed-place closes-below collect-follows collect-leaves collect-right collect-room collected-once
collected-unwinding collects-good come-to composed-verdict counts-released cut-fixed cut-same cut-to delete-follows
delete-right digit-sum digit-sum-more digits-at digits-cut digits-none distinct-back distinct-drop distinct-front
distinct-in distinct-less distinct-less-left distinct-out distinct-own distinct-turn down-cons down-more drop-all-none
each-good enclosed-by enclosed-shorter end-counts end-follows end-right ending-cleanup ending-harmless ending-no-handler
ending-no-terminate ends-after ends-here ends-landing enter-follows exact-class exact-verdict false-unless fault-text
fence-found fields-onward final-room find-all find-owned find-record find-serial find-site first-begins first-link
first-match fixed-at force-at force-cleans force-down force-follows force-in force-kept force-later force-list force-lower
force-of force-right force-room force-stopped force-top force-way forced-away format-at format-of frame-low frame-named
frame-of frames-leave frames-room from-the-first given-up goal-of goes-follows gone-once gone-room guest-verdict handler-at
handler-count handler-counts handler-for handler-landed handler-law handler-settled handles-in has-append has-catch has-cons
has-drop-all has-later has-less has-none has-skip has-swap has-unbegun has-unbegun-in has-unwinds held-verdict hit-at
hit-false hit-forced hit-matches hit-pos hit-true hit-yes image-is in-has in-record-at in-record-ok in-runs in-turn in-unit
in-unit-0 innermost-below innermost-fence is-0 is-handler judged-at judged-fields judged-fits keep-head keep-is keep-of
keep-passed keep-tested known-caught known-held known-there landed-before landed-goes-on landed-harmless landing-at
landing-lists lands-at language-shorter last-digit leaf-planned leaf-shorter leaf-verdict leave-follows leave-right
leb128-at leb128-means leb128-onward left-below-all left-below-tail length-less length-low length-popped lent-table
link-quiet lists-shorter little-more look-more lost-append lost-same lost-with-its-frame low-widen lowest-all lowest-skip
lsda-leaf lsda-planned made-iterate made-serials made-test make-follows make-named make-one make-right move-follows
move-right named-verdict names-own names-push names-without needs-a-frame never-terminates newest-is next-is next-walk
nibble-none nibble-of nibble-some no-begun-right no-fence no-handler no-landing no-match no-questions none-there not-begun
not-begun-answer not-caught not-ended-answer not-resumed not-waiting not-with not-zero nothing-stays nth-site number-onward
numbered-at numbered-onward numbered-turn numbers-law off-queue once-each one-held onward-end onward-more onward-quiet
or-false or-front or-true ordered-widen other-accounts others-head out-of-turn owners-disown owners-own pad-high pad-is
pad-low pad-of pair-verdict parent-le parent-none parent-outside pick-held pick-unheld planned-leaf planned-verdict
popped-at promise-kept queue-once quiet-good raise-at raise-down raise-follows raise-in raise-later raise-list raise-of
raise-right raise-top raised-harmless raised-own raiser-follows raiser-forgotten raiser-leaves raiser-named raiser-right
raiser-room raiser-there raisers-disown raisers-names raisers-own raisers-push raisers-without ranged-at ranged-facts
ranged-turn record-find record-in refusal-number refusals-leave refusals-listed refuse-follows refuse-if refuse-unless
refused-good refused-then release-good release-room release-verdict released-good released-reads rest-rises resume-below
resume-follows resume-named resume-right rethrow-follows rethrow-named rethrow-right right-as room-at-fewer room-for-fewer
room-kept room-popped room-tail run-good runs-good same-besides same-cleanup same-holders same-record says-guest says-pair
says-shorter search-at search-cause search-down search-from search-not-keep search-number search-passes search-sees
search-settled second-begins second-ends selector-is serial-of set-catches set-frames set-off set-off-leaves set-off-right
set-raisers set-running set-waiting settled-as shaped-more shaped-one shaped-rest site-format sites-at sites-law sjlj-leaf
sjlj-planned snoc-some some-frame spares-fence stands-below start-high start-low start-room step-at step-quiet stop-for
stop-settled table-bytes table-verdict take-site tally-text tell-apart tell-head that-head then-parts throw-room to-come
top-clear top-is tree-class tree-verdict turn-done turn-err turn-next two-cleanups type-of type-width types-at unbegun-has
under-above unit-0 unit-harmless unless-broken unlisted-stays unraised-own unsigned-at unsigned-low unsigned-onward
unwinding-at unwinding-chain unwinding-none unwinding-place unwinding-some unwinds-has verdict-harmless verdict-of
verdict-text waiting-here waiting-now waiting-unwinding waits-good walk-goes walk-room wanted-of way-ends when-not
width-bytes with-catches with-frames with-held with-raiser with-waiting within-self worked-runs written-more
"""


def spelled(name):
    if name in OTHERWISE:
        return OTHERWISE[name]
    if name[0].isupper():
        return "".join(part[0].upper() + part[1:] for part in name.split("-"))
    return name.replace("-", "_")


def turned(text, table, pattern, comment):
    lines = []
    for line in text.split("\n"):
        code, said = line, ""
        at = re.search(r"(^|\s)" + comment, line)
        if at:
            code, said = line[: at.start()], line[at.start() :]
        # the even parts stand outside strings
        parts = code.split('"')
        parts[::2] = [pattern.sub(lambda m: table[m.group(0)], part) for part in parts[::2]]
        lines.append('"'.join(parts) + said)
    return "\n".join(lines)


def main():
    table = {name: spelled(name) for name in NAMES.split()}
    longest = sorted(table, key=len, reverse=True)
    pattern = re.compile(r"(?<![\w'-])(" + "|".join(map(re.escape, longest)) + r")(?![\w'-])")
    for folder, _, files in os.walk("crates"):
        for name in sorted(files):
            if name.endswith((".rt", ".antt", ".edit")):
                path = os.path.join(folder, name)
                with open(path, encoding="utf-8") as file:
                    old = file.read()
                new = turned(old, table, pattern, "--" if name.endswith(".antt") else "//")
                if new != old:
                    with open(path, "w", encoding="utf-8") as file:
                        file.write(new)


if __name__ == "__main__":
    main()
