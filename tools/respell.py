#!/usr/bin/env python3
"""Spells the names of definitions and lemmas as the kit does: words in snake case, types and modules in camel case.
A dash stays where it joins the names of two functions, as in length-leveled; a lemma that would have the name of the function that it is about ends in _lem.

Run once at the top of the repository, after the kit's own script that turns an older repository. It changes names in .antt files, and in what .rt files say outside strings and comments."""
import pathlib
import re

# the old name of a definition, a lemma or a field, and its new one
NAMES = dict(line.split() for line in """
accepted-fits accepted_fits
all-at all_at
all-counting all_counting
all-free all_free
all-levels all_levels
allowance-follows allowance_follows
allowance-formed allowance_formed
allowance-made allowance_made
allowance-sets allowance_sets
allowanceBook allowance_book
allowances-keep-formed allowances_keep_formed
allowances-pass-on allowances_pass_on
allowed-at-formed allowed_at_formed
allowedAt allowed_at
allows-followed allows_followed
allows-made allows_made
allows-set allows_set
always-allows always_allows
always-lists always_lists
answer-below-eight answer_below_eight
answer-checked answer_checked
answer-count answer_count
answer-faultless answer_faultless
answer-fields answer_fields
answer-fits answer_fits
answer-good answer_good_lem
answer-in answer_in_lem
answer-inside answer_inside
answer-lacking answer_lacking
answer-mode answer_mode
answer-next answer_next
answer-no-rule answer_no_rule
answer-number answer_number
answer-parts answer_parts
answer-past answer_past
answer-read answer_read
answer-read-back answer_read_back
answer-rewritten answer_rewritten
answer-there answer_there
answer-told answer_told
answer-within answer_within
answer-written answer_written
answerAt answer_at
answerFault answer_fault
answerGood answer_good
answerPlace answer_place
answerText answer_text
answerWith answer_with
answerWord answer_word
answerWordOf answer_word_of
answers-back answers_back
answers-end answers_end
answers-rewritten answers_rewritten
answersFault answers_fault
answersIn answers_in
answersText answers_text
askNumber ask_number
askRefusal ask_refusal
book-accepted book_accepted
book-back book_back
bookIn book_in
bookOf book_of
bookUnder book_under
bounds-fit bounds_fit
count-all count_all
countBelow count_below
countIn count_in
counts-fits counts_fits
counts-on counts_on
decoded-either decoded_either
decoded-formed decoded_formed
decodedRule decoded_rule
drop-at-none drop_at_none
drop-at-some drop_at_some
entriesIn entries_in
entriesOf entries_of
example-absent example_absent
example-allowed example_allowed
example-alone example_alone
example-answer example_answer
example-blank example_blank
example-count example_count
example-does-not-fit example_does_not_fit
example-first example_first
example-fits example_fits
example-given example_given
example-heading example_heading
example-left-out example_left_out
example-listed example_listed
example-lists example_lists
example-locked example_locked
example-members example_members
example-mode example_mode
example-never example_never
example-no-answer example_no_answer
example-no-key example_no_key
example-no-rule example_no_rule
example-not example_not
example-nothing example_nothing
example-only example_only
example-picks example_picks
example-places example_places
example-rule example_rule
example-short example_short
example-spare-bit example_spare_bit
example-told example_told
example-twice example_twice
example-words example_words
example-wrong example_wrong
fails-tail fails_tail
few-answers few_answers
few-modes few_modes
few-rules few_rules
few-screens few_screens
first-some-all first_some_all
first-some-found first_some_found
first-some-more first_some_more
first-some-next first_some_next
first-some-none first_some_none
first-value first_value
firstIn first_in
firstLine first_line
firstScreen first_screen
firstSome first_some
firstWrong first_wrong
fits-counts fits_counts
fits-parts fits_parts
fitting-lasts fitting_lasts
free-of-one free_of_one
freeIn free_in
gathered-all gathered_all
gathered-more gathered_more
gathered-same gathered_same
getD-joined get_or-flat_map
giveAfter give_after
giveAnswer give_answer
giveNumber give_number
goesBefore goes_before
head-told head_told
headIn head_in
headWith head_with
heading-fields heading_fields
heading-good heading_good_lem
heading-parts heading_parts
heading-rewritten heading_rewritten
heading-written heading_written
headingGood heading_good
headingWordOf heading_word_of
held-book held_book
heldIn held_in
holdsBelow holds_below
imageLength image_length
inForce in_force
inputText input_text
isSome-mapped is_some-option_map
kept-both kept_both
kept-leaves-out kept_leaves_out
kept-pile kept_pile
kept-swap kept_swap
keyIn key_in
keysAfter keys_after
keysIn keys_in
left-no-more left_no_more
left-out-append left_out_append
left-out-joined left_out_joined
left-out-kept left_out_kept
left-out-length left_out_length
left-out-map left_out_map
leftAfter left_after
length-joined length-flat_map
length-levels length_levels
length-rewritten length_rewritten
length-rule-words length-rule_words
level-fits level_fits
line-next line_next
line-told line_told
lineIn line_in
lists-followed lists_followed
lists-locked lists_locked
lists-made lists_made
loadText load_text
lock-locks lock_locks
lock-made lock_made
lockAnswer lock_answer
lockBook lock_book
lockUnder lock_under
locked-none locked_none
locks-in-either-order locks_in_either_order
locks-keep-formed locks_keep_formed
locks-narrow locks_narrow
locks-pass-on locks_pass_on
locks-pile locks_pile
markAfter mark_after
markAnswer mark_answer
markNumber mark_number
marksWith marks_with
mode-fits mode_fits
modeIn mode_in
modeWith mode_with
modesIn modes_in
nine-rewritten nine_rewritten
no-head-no-answer no_head_no_answer
no-rule no_rule
none-all none_all
none-there none_there
nothing-locked nothing_locked
nth-back nth_back
nth-counted nth_counted
nth-counted-past nth_counted_past
nth-front nth_front
nth-levels nth_levels
nth-map nth_map
nth-none nth_none
nth-picks nth_picks
nth-within nth_within
of-answer of_answer
of-answers of_answers
of-states of_states
ok-none ok_none
one-there one_there
only-leaves-out only_leaves_out
origin-first origin_first
origin-level origin_level
origin-none origin_none
origin-past origin_past
picked-formed picked_formed
picked-locked picked_locked
picks-all picks_all
picks-few picks_few
picks-from picks_from
picks-past picks_past
picks-places picks_places
pile-stands pile_stands
pileBook pile_book
places-next places_next
places-rise places_rise
placesFrom places_from
plan-faultless plan_faultless
planFault plan_fault
planText plan_text
reads-back reads_back
refusalLine refusal_line
refusalOf refusal_of
rises-bound rises_bound
rises-cons rises_cons
rises-lower rises_lower
rises-parts rises_parts
risesFrom rises_from
rule-back rule_back
rule-checked rule_checked
rule-count rule_count
rule-faultless rule_faultless
rule-fields rule_fields
rule-good rule_good_lem
rule-inside rule_inside
rule-mode rule_mode
rule-parts rule_parts
rule-past rule_past
rule-read rule_read
rule-rewritten rule_rewritten
rule-word rule_word_lem
rule-written rule_written
ruleAt rule_at
ruleFault rule_fault
ruleFields fields_of_rule
ruleGood rule_good
ruleLine rule_line
ruleLines rule_lines
ruleOf rule_of
rulePlace rule_place
ruleWith rule_with
ruleWord rule_word
ruleWordOf rule_word_of
ruleWords rule_words
rules-back rules_back
rules-nine rules_nine
rulesIn rules_in
same-below same_below
sameEntry same_entry
screenGood screen_good
screenIn screen_in
screens-fields screens_fields
screens-fit screens_fit
screens-small screens_small
screens-told screens_told
screensIn screens_in
screensOf screens_of
screensText screens_text
second-good second_good
secondIn second_in
secondScreen second_screen
setAnswer set_answer
some-append some_append
some-mode some_mode
some-screen some_screen
spareIn spare_in
stands-past stands_past
standsAt stands_at
told-within told_within
toldOf told_of
twoKeys two_keys
underAt under_at
unset-lists-below unset_lists_below
used-word used_word
wholeWords whole_words
withFirst with_first
word-rewritten word_rewritten
wordHead word_head
writes-back writes_back
wrongScreen wrong_screen
""".strip().splitlines())

# names that fell together with another in one file alone
APART = {
    "crates/image/proofs/Written.antt": {"answer_word": "answer_word_lem"},
    "crates/image/proofs/Rewritten.antt": {"answer_at": "answer_at_place"},
}

# a whole name: no letter, digit, dash or apostrophe touches it
WORD = re.compile(r"(?<![\w'-])[A-Za-z_][\w'-]*")
# what is left alone in .rt files: strings, bytes and comments
APART_IN_CODE = re.compile(r'"(?:[^"\\]|\\.)*"|//[^\n]*')


def respelled(text, names):
    return WORD.sub(lambda word: names.get(word.group(), word.group()), text)


def respelled_code(text, names):
    done, parts = 0, []
    for found in APART_IN_CODE.finditer(text):
        parts += [respelled(text[done:found.start()], names), found.group()]
        done = found.end()
    return "".join(parts + [respelled(text[done:], names)])


def main():
    for path in sorted(pathlib.Path("crates").rglob("*")):
        if path.suffix not in (".antt", ".rt") or "out" in path.parts:
            continue
        names = NAMES | APART.get(path.as_posix(), {})
        old = path.read_text()
        new = respelled(old, names) if path.suffix == ".antt" else respelled_code(old, names)
        if new != old:
            path.write_text(new)


main()
