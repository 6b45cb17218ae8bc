#!/usr/bin/env python3
"""Turns the repository's own definitions, constructors, fields and lemmas to one spelling: words in snake case, types in camel case.

usage: python3 tools/respell.py        once, at the top, after the kit's port.py; a second time it finds nothing to do and stops

It writes crates/**/*.antt and the clauses of crates/**/*.rt, and lays them out by `rt fmt`. Functions of src/ and strings keep their words; a
name of a definition in a comment is turned with it. A lemma whose name would fall together with its function's gets `_lem`.
"""

import os
import re
import subprocess

NAMES = """
Any-order=AnyOrder Best-in=BestIn Holder-of=HolderOf Is-gap=IsGap No-room=NoRoom One-answer=OneAnswer Round-trip=RoundTrip
admitted-facts=admitted_facts allPages=all_pages answersOf=answers_of apart-facts=apart_facts apart-test=apart_test apartFrom=apart_from
asOpened=as_opened at-fold=at_fold at-start=at_start at-untouched=at_untouched behind-from=behind_from best-behind=best_behind best-gap=best_gap
best-one=best_one best-right=best_right blocked-card=blocked_card bufferAfter=buffer_after buffered-push=buffered_push callFor=call_for
calls-push=calls_push card-access=card_access card-first=card_first cardChecks=card_checks cardHolds=card_holds cardRead=card_read
cardReadOf=card_read_of cardWrite=card_write cardWriteOf=card_write_of choice-found=choice_found choice-free=choice_free choice-from=choice_from
choice-full=choice_full choice-is=choice_is choice-lawful=choice_lawful choice-new=choice_new choice-none=choice_none choice-own=choice_own
choice-room=choice_room choice-some=choice_some choice-whole=choice_whole choice-words=choice_words chosen-same=chosen_same betterOf=better_of cardReadCall=card_read_call cardWriteCall=card_write_call clearOf=clear_of cpuReadCall=cpu_read_call cpuWriteCall=cpu_write_call
mapCall=map_call unmapCall=unmap_call clear-from=clear_from
clear-true=clear_true close-window=close_window closed-call=closed_call copy-own=copy_own copyAgain=copy_again copyAtSync=copy_at_sync
copyAtUnmap=copy_at_unmap copyIn=copy_in count-free=count_free count-full=count_full count-skip=count_skip count-step=count_step cpuChecks=cpu_checks
cpuRead=cpu_read cpuReadOf=cpu_read_of cpuWrite=cpu_write cpuWriteOf=cpu_write_of cut-cases=cut_cases cut-ge=cut_ge cut-le=cut_le
directionOf=direction_of fails-bytes=fails_bytes fails-done=fails_done final-push=final_push find-in=find_in find-is-in=find_is_in first-is=first_is
first-page=first_page_lem firstFrame=first_frame firstPage=first_page fits-facts=fits_facts fits-test=fits_test fitting-turned=fitting_turned
free-is=free_is free-same=free_same freeWindow=free_window from-insert=from_insert from-remove=from_remove go-on-same=go_on_same
go-on-short=go_on_short goOn=go_on granted-ranged=granted_ranged granted-told=granted_told has-such=has_such held-false=held_false held-true=held_true
holderAfter=holder_after in-opened=in_opened in-turn=in_turn insert-front=insert_front insert-here=insert_here insert-in=insert_in
insert-keeps=insert_keeps insert-none=insert_none insert-past=insert_past isAccess=is_access isBlockKind=is_block_kind isBuffer=is_buffer
isCard=is_card isChoiceKind=is_choice_kind isDirection=is_direction isFree=is_free isMemory=is_memory isOpen=is_open item-onward=item_onward
items-short=items_short judged-inside=judged_inside landings-apart=landings_apart landsOn=lands_on last-from=last_from last-ge=last_ge last-in=last_in
last-le=last_le last-not-below=last_not_below lastPage=last_page lastPages=last_pages later-on=later_on lawful-facts=lawful_facts
lawful-insert=lawful_insert lawful-remove=lawful_remove lawful-test=lawful_test lawful-turn=lawful_turn lawful-uninsert=lawful_uninsert leftIn=left_in
length-insert=length_insert little-nil=little_nil little-one=little_one little-parts=little_parts little-split=little_split mapOf=map_of
new-fits=new_fits newMapping=new_mapping noPages=no_pages noPagesFor=no_pages_for noReports=no_reports noWindow=no_window none-set=none_set
noneHeld=none_held noneOf=none_of noneReserved=none_reserved none_of=none_of_lem not-closed=not_closed not-held=not_held not-reached=not_reached
not-reserved=not_reserved not-turned=not_turned noted-set=noted_set number-back=number_back offset-device=offset_device offset-landing=offset_landing
on-choice=on_choice_lem onChoice=on_choice onFine=on_fine onFound=on_found onFrom=on_from onPage=on_page onPageFound=on_page_found
one-on-page=one_on_page one-start=one_start onePage=one_page open-window=open_window opened-call=opened_call opened-sorted=opened_sorted
opensAfter=opens_after own-sync=own_sync own-unmap=own_unmap page-fact=page_fact page-high=page_high page-low=page_low page-test=page_test
pageCount=page_count pageFor=page_for pageNumber=page_number pages-apart=pages_apart pages-at=pages_at pages-back=pages_back pages-given=pages_given
pages-length=pages_length pages-same=pages_same pages-window=pages_window pagesIn=pages_in pagesOf=pages_of pair-insert=pair_insert pair-map=pair_map
pair-remove=pair_remove pair-uninsert=pair_uninsert pairwise-in=pairwise_in part-clear=part_clear part-copy=part_copy part-more=part_more
part-more-0=part_more_0 part-paste=part_paste part-read=part_read placed-onward=placed_onward prefers-order=prefers_order ran-more=ran_more
ran-none=ran_none range-facts=range_facts reach-in=reach_of_in reach-insert-other=reach_insert_other reach-none=reach_none reach-windows=reach_windows
reachBy=reach_by reachIn=reach_in reachOf=reach_of reachThrough=reach_through reached-at=reached_at reached-inside=reached_inside
reachedByte=reached_byte read-blocked=read_blocked read-refused=read_refused readFor=read_for readFrom=read_from readInto=read_into recordOf=record_of
refused-after=refused_after refused-call=refused_call remove-insert-same=remove_insert_same remove-none=remove_none reportsOf=reports_of
rightsOf=rights_of roomy-false=roomy_false roomy-true=roomy_true run-free=run_free run-gap=run_gap said-so=said_so same-or-apart=same_or_apart
same-page=same_page script-back=script_back scriptOf=script_of setupIn=setup_in setupNumber=setup_number setupOf=setup_of share-none=share_none
share-test=share_test some-held=some_held some-pages=some_pages some-place=some_place soundOf=sound_of start-apart=start_apart
start-not-inside=start_not_inside start-page=start_page stays-found=stays_found still-lawful=still_lawful syncChecks=sync_checks
syncForCard=sync_for_card syncForCardOf=sync_for_card_of syncForCpu=sync_for_cpu syncForCpuOf=sync_for_cpu_of takes-pages=takes_pages
target-blocked=target_blocked target-refused=target_refused tellsAt=tells_at tellsBytes=tells_bytes tellsDone=tells_done tellsReport=tells_report
then-fine=then_fine toldBy=told_by top-none=top_none top-some=top_some trailed-back=trailed_back trailed-fits=trailed_fits turn-insert=turn_insert
turn-none=turn_none turn-window=turn_window turned-at=turned_at turned-call=turned_call turnedBy=turned_by unless-fine=unless_fine
unmapChecks=unmap_checks unmapOf=unmap_of untouched-at=untouched_at untouched-used=untouched_used used-untouched=used_untouched usedPages=used_pages
value-back=value_back value-short=value_short wholeEnd=whole_end window-bounds=window_bounds window-disjoint=window_disjoint window-kept=window_kept
window-landing=window_landing window-pages=window_pages window-reach=window_reach window-refusals=window_refusals window-room=window_room
windowChoice=window_choice windowKind=window_kind within-from=within_from within-true=within_true would-fail=would_fail would-place=would_place
would-refuse=would_refuse write-blocked=write_blocked write-refused=write_refused
"""

TURNED = dict(word.split("=") for word in NAMES.split())
LONGEST_FIRST = sorted(TURNED, key=len, reverse=True)
NAME = re.compile(r"(?<![\w'-])(?:" + "|".join(map(re.escape, LONGEST_FIRST)) + r")(?![\w'-])")
STRING = re.compile(r'"(?:[^"\\]|\\.)*"')


def turned(text, in_comment):
    # a dash in a comment joins plain words too
    return NAME.sub(lambda m: m[0] if in_comment and "-" in m[0] else TURNED[m[0]], text)


def line_turned(line, mark):
    code, sep, comment = line.partition(mark)
    parts, last = [], 0
    for s in STRING.finditer(code):
        parts += [turned(code[last : s.start()], False), s[0]]
        last = s.end()
    parts.append(turned(code[last:], False))
    return "".join(parts) + sep + turned(comment, True)


def is_turned():
    # `none_of` was a lemma's name and is now its function's, so a second turn would rename the function too
    with open("crates/meaning/specs/Checks.antt", encoding="utf-8") as f:
        return "noneOf" not in f.read()


def main():
    if is_turned():
        raise SystemExit("respell: the names have today's spelling: nothing to do")
    for folder, dirs, files in os.walk("crates"):
        dirs[:] = [d for d in dirs if d != "out"]
        for name in files:
            mark = {".rt": "//", ".antt": "-- "}.get(os.path.splitext(name)[1])
            if not mark:
                continue
            path = os.path.join(folder, name)
            with open(path, encoding="utf-8") as f:
                old = f.read()
            new = "".join(line_turned(line, mark) for line in old.splitlines(keepends=True))
            if new != old:
                with open(path, "w", encoding="utf-8") as f:
                    f.write(new)
    for crate in sorted(os.listdir("crates")):
        subprocess.run(["rt", "fmt"], cwd=os.path.join("crates", crate), check=True, stdout=subprocess.DEVNULL)


if __name__ == "__main__":
    main()
