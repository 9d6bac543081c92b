#!/usr/bin/env python3
"""Respells this repository's own definitions and lemmas as today's Rattle writes them: snake case, and a dash between two names alone.

Run once at the top of the repository, behind port.py: python3 tools/port_names.py. It goes by whole words, in the antt
files, in the clauses and comments of the .rt files, in the edits under must-fail/, and in the code spans of the pages.
Functions, types, strings, inputs and outputs keep their names. A function's proof file exports NAME_spec.
"""
import glob
import re

WORD = re.compile(r"""[^\s(){}\[\].;,:@"«»`]+""")
STRING = re.compile(r'"(?:[^"\\\n]|\\.)*"')
SPAN = re.compile(r"`[^`\n]*`")

# Names of a file's own that would fall together with a respelled one.
FIRST = {
    "crates/frames/specs/TextLaws.antt": {"all_digits": "all_are_digits"},
    "crates/history/specs/OnePlace.antt": {"list_at": "list_there"},
    "crates/machine/specs/StepLaws.antt": {"takeAt": "take_out"},
    "crates/replays/specs/RunnerLaws.antt": {"lines_after": "lines_after_lem"},
}

NAMES = dict(
    line.split()
    for line in """
accessOf access_of
address-in address_in
afterFree after_free
aims-begin aims_begin
all-in-range all_in_range
all-of-digits all_of_digits
allDigits all_digits
alsoStores also_stores
answer-read answer_read
anyAbove any_above
anyIs any_is
at-nil at_nil
atIn at_in
availableNext available_next
avnLong avn_long
begun-events begun_events
begunLists begun_lists
bit-or bit-bit_or
block-and-rest block_and_rest
block-fits block_fits
block-left block_left
both-0 both_0
bulkReclaims bulk_reclaims
busyBy busy_by
byThread by_thread
carriage-return carriage_return
cat-set2 cat_set2
cellsGiven cells_given
claim-begin claim_begin
clearsGuards clears_guards
copying-all copying_all
copying-more copying_more
copying-none copying_none
count-begin count_begin
counterCells counter_cells
countersIn counters_in
cut-anywhere cut_anywhere
decimal-stands decimal_stands
decimalOf decimal_of
demand-1 demand_1
demand-3 demand_3
demand-3-base demand_3_base
digit-hex digit_hex
digitOf digit_of
digits-after digits_after
digits-length digits_length
digits-no digits_no
digits-on digits_on
digits-yes digits_yes
digitsOf digits_of
drop-digits drop_digits
due-when-equal due_when_equal
dueTime due_time
ends-bad ends_bad
eq01-cases eq01_cases
eventBy event_by
eventOf event_of
examineAt examine_at
examineFrom examine_from
fetched-in fetched_in
fieldLineOf field_line_of
fieldsIn fields_in
filled-all filled_all
filled-some filled_some
fit-from fit_from
fits-up fits_up
flag-bit flag_bit
flag-of-two flag_of_two
follow-seg follow_seg
followOf follow_of
found-end found_end
found-untaken found_untaken
frame-read frame_read
frame-unique frame_unique
framed-as framed_as
freshAt fresh_at
fromRecords from_records
fromRows from_rows
fromSources from_sources
goTo go_to
guard-words guard_words
guardedAlso guarded_also
guardsAfter guards_after
guardsGiven guards_given
guardsIn guards_in
guardsOf guards_of
guardsPut guards_put
has-looked has_looked
has-read has_read
headAvailable head_available
headCells head_cells
headsIn heads_in
heap-begin heap_begin
hex-digit hex_digit
hexOf hex_of
hoLong ho_long
hook-alone hook_alone
hook-keep hook_keep
hook-reclaim hook_reclaim
hook-stolen hook_stolen
idsPut ids_put
in-begin in_begin
in-class in_class
in-counters at_counters
in-hand in_hand
in-heads at_heads
in-limit in_limit
in-lists in_lists
in-next at_next
in-plain in_plain
in-range is_in_range
in-records at_records
in-shard shard_is_in
in-slot in_slot
in-sources at_sources
in-state at_state
in-turn in_turn
in-word in_word
inNext in_next
inRecords in_records
inRow-length in_row-length
inShard in_shard
inSources in_sources
inState in_state
insideOf inside_of
is-no is_no
is-yes is_yes
isGuarded is_guarded
kEmpty k_empty
kExamine k_examine
kFree k_free
kIdle k_idle
kPush2 k_push2
kRaw k_raw
kReclaim k_reclaim
kReset k_reset
kSteal k_steal
kSwap k_swap
kUnknown k_unknown
keeps-up keeps_up
last-in last_in
less-exact less_exact
line-no line_no
line-yes line_yes
lineIn line_in
lines-answered lines_answered
lines-joined lines_joined
lines-joined-after lines_joined_after
lines-line lines_line
lines-on lines_on
linesAfter lines_after
linksAt links_at
listAt list_at
lists-are lists_are
load-else load_else
lock-knows lock_knows
lockOf lock_of
locked-no locked_no
locked-odd locked_odd
locked-yes locked_yes
lone-in lone_in
lookBy look_by
mark-open mark_open
marksOf marks_of
mod-step mod_step
newPass new_pass
nextLong next_long
nodesIn nodes_in
noneGuarded none_guarded
notNode not_node
notOwned not_owned
notRetirable not_retirable
notSource not_source
null-in null_in
numberFrom number_from
occ-append occ_append
of-record of_record
onCells on_cells
open-ended open_ended
open-few open_few
or-all or_all
over-signed over_signed
owes-from owes_from
owesOf owes_of
parts-sized parts_sized
pc-is pc_is
pc-of-code pc_of_code
pcOf pc_of
pick-case pick_case
places-are places_are
plus-exact plus_exact
pow-bit pow_bit
pow-bit-other pow_bit_other
putIf put_if
ranLine ran_line
range-begin range_begin
read-limit read_limit
reading-all reading_all
reading-more reading_more
reading-none reading_none
record-begin record_begin
record-ends record_ends
record-in record_in
record-of-locked record_of_locked
record-place record_place
recordCount record_count
recordHead record_head
recordNext record_next
recordsIn records_in
refuse-all refuse_all
refuseBy refuse_by
refuseOf refuse_of
replyTo reply_to
retireBy retire_by
rowFits row_fits
rowFrom row_from
rowMost row_most
rows-11 rows_11
rowsIn rows_in
runAll run_all
runBlock run_block
runByte run_byte
runBytes run_bytes
runEnd run_end
runLines run_lines
same-bad same_bad
seat-from seat_from
seg-append seg_append
seg-count seg_count
seg-empty seg_empty
seg-frame seg_frame
seg-length seg_length
seg-null seg_null
seg-pop seg_pop
seg-push seg_push
seg-retail seg_retail
seg-unique seg_unique
set-append-add set_append_add
set-slot2 set_slot2
setIn set_in
sets-append sets_append
shard-0 shard_0
shard-in shard_inside
shard-mod shard_mod
shardHeads shard_heads
shardIn shard_in
shardOf shard_of
shards-are shards_are
sharedIn shared_in
shutIf shut_if
shutNext shut_next
signedLineOf signed_line_of
size-0 size_0
size-1 size_1
sized-16 sized_16
sized-17 sized_17
sizedBy sized_by
sizesBy sizes_by
slot-in slot_in
sourcesIn sources_in
span-at span_at
start-16 start_16
start-17 start_17
start-begin start_begin
start-no start_no
startFields start_fields
step-16 step_16
step-17 step_17
step-19 step_19
step-21 step_21
step-turn step_turn
stepIn step_in
stolenFrom stolen_from
stored-else stored_else
stored32-else stored32_else
stored64-else stored64_else
storedBy stored_by
storedFrom stored_from
storedIn stored_in
storing-all storing_all
storing-more storing_more
storing-none storing_none
sumTo-add sum_to_add
sumTo-le sum_to-le
sumTo-nil sum_to_nil
sumTo-one sum_to-one
sumTo-zero sum_to-zero
swap-free swap_free
swing-begin swing_begin
swingOf swing_of
tab-ext tab_ext
tables-sized tables_sized
tail-in tail_in
take-29 take_29
take-digits take_digits
takeBy take_by
takes-turn takes_turn
tally-begin tally_begin
text-digits text_digits
tight-in tight_in
to-signed to_signed
toKeep to_keep
toReclaim to_reclaim
total-begin total_begin
un-shard un_shard
un-two un_two
unknown-kind unknown_kind
untaken-damaged untaken_damaged
untaken-free untaken_free
untaken-on untaken_on
untaken-out untaken_out
untaken-unused untaken_unused
untakenFor untaken_for
untakenFrom untaken_from
up-all up_all
up-on up_on
upper-case upper_case
used-begin used_begin
where-is where_is
withCounters with_counters
withDone with_done
withHeads with_heads
withLock with_lock
withLone with_lone
withNode with_node
withRec with_rec
withRecords with_records
withRows with_rows
withSources with_sources
writing-all writing_all
zone-begin zone_begin
""".strip().splitlines()
)


def words(text, table):
    return WORD.sub(lambda m: table.get(m.group(), m.group()), text)


def unquoted(text, table):
    """All but what stands in double quotes."""
    out, at = [], 0
    for m in STRING.finditer(text):
        out += [words(text[at : m.start()], table), m.group()]
        at = m.end()
    return "".join(out) + words(text[at:], table)


def spans(text, table):
    return SPAN.sub(lambda m: words(m.group(), table), text)


def rewrite(path, turn):
    with open(path, encoding="utf-8") as f:
        old = f.read()
    new = turn(old)
    if new != old:
        with open(path, "w", encoding="utf-8") as f:
            f.write(new)


def antt(path):
    table = dict(NAMES)
    proof = re.search(r"/proofs/(?:.*/)?([^/+]+)/Proof\.antt$", path)
    if proof:
        table[proof.group(1).replace("_", "-") + "-spec"] = proof.group(1) + "_spec"
    return lambda text: words(words(text, FIRST.get(path, {})), table)


def main():
    for path in sorted(glob.glob("crates/*/specs/**/*.antt", recursive=True) + glob.glob("crates/*/proofs/**/*.antt", recursive=True)):
        rewrite(path, antt(path))
    for path in sorted(glob.glob("crates/*/src/**/*.rt", recursive=True)):
        rewrite(path, lambda text: unquoted(text, NAMES))
    for path in sorted(glob.glob("crates/*/must-fail/*.edit")):
        rewrite(path, lambda text: unquoted(text, NAMES))
    for path in sorted(glob.glob("docs/**/*.md", recursive=True) + glob.glob("*.md") + glob.glob("days/*.md")):
        rewrite(path, lambda text: spans(text, NAMES))


main()
