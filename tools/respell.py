#!/usr/bin/env python3
"""Respells this repository's own names of specs/ and proofs/: facts in camel case, all else in snake case.

usage: python3 tools/respell.py [ROOT]      rewrites crates/ below ROOT (default: the folder above this one) in place

It was run once, on what /opt/rattle/port/port.py left, when the repository moved to the toolchain of docs/PORT.md. A dash is
kept where it joins two names, as in `span-le`, as the standard library does. It turns whole words alone: the code of .antt
files, and of .rt files and must-fail edits what stands outside comments; a word with a dash there is a name of a clause,
since Rust's minus has spaces around it. Before it writes anything it looks for names that would fall together.
"""

import os
import re
import sys

# Facts: definitions whose values are types.
FACTS = """
All-fitted=AllFitted Always-from=AlwaysFrom Apart-below=ApartBelow Arc-tried=ArcTried At-firm=AtFirm
Each-true=EachTrue Fits-at=FitsAt Fits-step=FitsStep Has-room=HasRoom Heights-bound=HeightsBound Is-step=IsStep
Meets-is-greatest=MeetsIsGreatest No-ring-left=NoRingLeft Position-kept=PositionKept Pushed-round=PushedRound
Ring-gains=RingGains Rows-each=RowsEach Rows-fit=RowsFit Search-ends=SearchEnds Set-off=SetOff Sound-list=SoundList
Sound-rows=SoundRows Worked-days=WorkedDays
"""

# Definitions, fields, lemmas and variables.
WORDS = """
always-from=always_from amount-each=amount_each amount-room=amount_room apart-or-repeat=apart_or_repeat
arc-le=arc_le arc-on=arc_on arc-there=arc_there at-by-test=at_by_test back-fitted=back_fitted back-there=back_there
bad-firms=bad_firms bad-length=bad_length below-m=below_m bill-tests=bill_tests by-arc=by_arc by-room=by_room
by-rule=by_rule by-rule-none=by_rule_none by-rule-some=by_rule_some by-rules=by_rules cents-in=cents_in
chain-gains=chain_gains closed-gains=closed_gains collects-all=collects_all collects-more=collects_more
collects-none=collects_none comes-again=comes_again counted-small=counted_small day-in=day_in day-of=day_of
decides-bad-firms=Decides-bad_firms decides-bad-length=Decides-bad_length decides-breaks=Decides-breaks
decides-leb=Decides-leb down-small=down_small each-true=each_true eight-back=eight_back eight-bytes=eight_bytes
ends-or-long=ends_or_long even-like=even_like every-at=every_at exactly-by=exactly_by faulty-at=faulty_at
few-apart=few_apart few-cents=few_cents few-firms=few_firms few-invoices=few_invoices few-is=few_is
few-struck=few_struck finds-by=finds_by finds-first=finds_first finds-if=finds_if finds-length=finds_length
finds-next=finds_next finds-refusal=finds_refusal finds-room=finds_room finds-rule=finds_rule
finds-rules=finds_rules firm-tests=firm_tests firms-back=firms_back firms-in=firms_in first-none=first_none
first-sort=first_sort fit-fitted=fit_fitted fit-tight=fit_tight fitted-fit=fitted_fit fitted-no-ring=fitted_no_ring
flow-each=flow_each flowing-all=flowing_all found-more=found_more found-s=found_s from-room=from_room
from-there=from_there getD-invoices-in=get_or-invoices_in getD-joined=get_or-joined getD-written=get_or-written
going-there=going_there head-there=head_there heads-there=heads_there height-each=height_each
heights-bound=heights_bound high-goes-on=high_goes_on if-so=if_so in-all-is=in_all_is in-gains=in_gains
in-gives=in_gives invoice-at=invoice_at invoice-back=invoice_back invoice-bytes=invoice_bytes
invoices-back=invoices_back invoices-in=invoices_in is-long=is_long is-owed=is_owed kind-of=kind_of
last-clear=last_clear last-each=last_each lasts-there=lasts_there late-goes-on=late_goes_on late-ring=late_ring
leads-more=leads_more leads-none=leads_none leads-on=leads_on leads-to-end=leads_to_end
left-and-struck=left_and_struck length-invoices-in=length-invoices_in let-off=let_off lets-off=lets_off
link-new=link_new link-old=link_old long-ring=long_ring meets-is-greatest=meets_is_greatest network-in=network_in
network-of=network_of never-short=never_short next-round=next_round no-ring=no_ring no-ring-left=no_ring_left
no-smaller=no_smaller nodes-even=nodes_even none-broken=none_broken none-from-ok=none_from_ok
none-from-unbroken=none_from_unbroken none-if=none_if not-by-test=not_by_test nothing-even=nothing_even
number-clear=number_clear number-each=number_each one-sort=one_sort or-next=or_next part-fit=part_fit
part-le=part_le part-tight=part_tight partly-all=partly_all parts-of=parts_of passes-when=passes_when
position-kept=position_kept push-flow=push_flow push-gain=push_gain push-room=push_room push-within=push_within
pushed-all=pushed_all pushed-other=pushed_other raised-exact=raised_exact raised-low=raised_low
raised-most=raised_most raised-there=raised_there raises-on=raises_on raises-when=raises_when
reached-least=reached_least refusal-by=refusal_by refusal-in=refusal_in refusal-text=refusal_text
refused-first=refused_first ring-clear=ring_clear ring-each=ring_each ring-gains=ring_gains room-ample=room_ample
room-with=room_with rooms-ahead=rooms_ahead round-circulation=round_circulation round-gain=round_gain
row-after=row_after rows-sound=rows_sound same-refusal=same_refusal search-ends=search_ends set-off=set_off
share-bound=share_bound share-fits=share_fits share-more=share_more share-none=share_none share-same=share_same
size-text=size_text some-cents=some_cents some-firm=some_firm sound-like=sound_like sound-list=sound_list
sound-taken=sound_taken span-at=span_at span-bound=span_bound span-differ=span_differ span-one=span_one
span-shift=span_shift span-tight=span_tight strangers-apart=strangers_apart struck-each=struck_each
sweeping-kept=sweeping_kept sweeping-more=sweeping_more sweeping-none=sweeping_none sweeping-raised=sweeping_raised
swept-more=swept_more tail-there=tail_there tails-there=tails_there taken-room=taken_room taken-sound=taken_sound
tallied-fits=tallied_fits tallied-more=tallied_more tallied-none=tallied_none test-of-pick=test_of_pick
tests-of=tests_of there-f=there_f three-parts=three_parts tight-fit=tight_fit tight-maximum=tight_maximum
to-each=to_each to-there=to_there told-by=told_by tried-below=tried_below tried-exact=tried_exact tries-on=tries_on
true-from-none=true_from_none two-firms=two_firms unbroken-by-sound=unbroken_by_sound when-back=when_back
worked-days=worked_days written-brings=written_brings written-more=written_more
"""

TABLE = dict(row.split("=") for row in (FACTS + WORDS).split())
WORD = re.compile(r"[^\s(){}.;,@\"«»]+")
SPAN = re.compile(r"`[^`\n]*`")


def files(root):
    for folder, dirs, names in os.walk(os.path.join(root, "crates")):
        dirs[:] = sorted(d for d in dirs if d != "out")
        for name in sorted(names):
            if name.endswith((".antt", ".rt", ".edit")):
                yield os.path.join(folder, name)


def words(text):
    return WORD.sub(lambda m: TABLE.get(m[0], m[0]), text)


def turn(path, text):
    """The text with its words respelled; of a comment only what stands between backquotes."""
    mark = "--" if path.endswith(".antt") else "//"
    out = []
    for line in text.splitlines(keepends=True):
        if line.lstrip().startswith(mark):
            out.append(SPAN.sub(lambda m: words(m[0][1:-1]).join("``"), line))
        else:
            out.append(words(line))
    return "".join(out)


def fallen_together(before):
    """Names of a file that are the new spelling of another name of that file."""
    found = []
    for path, text in before.items():
        code = "\n".join(l for l in text.splitlines() if not l.lstrip().startswith(("--", "//")))
        there = set(WORD.findall(code))
        found += [f"{path}: {old} and {new}" for old, new in TABLE.items() if old in there and new in there]
    return found


def main():
    root = sys.argv[1] if len(sys.argv) > 1 else os.path.join(os.path.dirname(os.path.abspath(__file__)), "..")
    assert len(set(TABLE.values())) == len(TABLE), "two names of the table fall together"
    before = {}
    for path in files(root):
        with open(path, encoding="utf-8") as f:
            before[path] = f.read()
    for line in fallen_together(before):
        print("look:", line)
    for path, text in before.items():
        after = turn(path, text)
        if after != text:
            with open(path, "w", encoding="utf-8") as f:
                f.write(after)


if __name__ == "__main__":
    main()
