#!/usr/bin/env python3
"""Respells the names of this repository's definitions and lemmas as today's Rattle spells them: a word in snake case,
a fact in camel case. Each line of NAMES is an old name and the new one. Run once, at the top of the repository, after
the kit's own port.py. It touches the .antt files, the clauses in the .rt files, and the must-fail edits; names that
Rattle makes (of goals, steps and loops) and the library's keep their spelling."""
import re
from pathlib import Path

NAMES = """
All-or-nothing AllOrNothing
All-pass AllPass
Decoding-examples DecodingExamples
Decoding-undoes-encoding DecodingUndoesEncoding
Encoding-undoes-decoding EncodingUndoesDecoding
In-a-row InARow
Joined-as-parts JoinedAsParts
Lowest-failing LowestFailing
Open-to-all OpenToAll
Refused-at-lowest RefusedAtLowest
Seen-as-both SeenAsBoth
Shows-what-was-encoded ShowsWhatWasEncoded
Table-names-130 TableNames130
Table-rule TableRule
Union-among UnionAmong
above-lt above_lt
after-row after_row
all-below all_below
all-bytes all_bytes
all-free all_free
all-inside all_inside
all-or-nothing all_or_nothing
all-passed all_passed
alone-all alone_all
answer-above answer_above
answer-accepted answer_accepted
answer-below answer_below
answer-free answer_free
answer-is answer_is
answer-outside answer_outside
answered-ok answered_ok
apart-three apart_three
apart-two apart_two
as-codec as_codec
asked-above asked_above
asked-below asked_below
at-end at_end
at-refusal at_refusal
at-start at_start
before-end before_end
block-answer block_answer
block-looked block_looked
byte-accepted byte_accepted
byte-written byte_written
bytes-from bytes_from
code-width code_width
codec-number codec_number
copied-answer copied_answer
copied-bytes copied_bytes
copied-laid copied_laid
copied-over copied_over
count-line count_line
counted-one counted_one
cut-bounded cut_bounded
cut-front cut_front
cut-length cut_length
cut-set cut_set
decode-message decode_message
decode-number decode_number
decoded-from decoded_from
encode-number encode_number
even-enough even_enough
figure-more figure_more
first-accepted first_accepted
first-byte-div first_byte_div
first-byte-lt first_byte_lt
first-byte-mod first_byte_mod
first-byte-whole first_byte_whole
first-bytes first_bytes
first-failing first_failing
first-line first_line
first-outside first_outside
first-refused first_refused
first-written first_written
fitting-all fitting_all
free-cells free_cells
free-here free_here
from-power from_power
heard-at heard_at
heard-length heard_length
heard-looked heard_looked
held-parts held_parts
hex-all hex_all
hex-digit hex_digit
hex-more hex_more
if-inside if_inside
image-bytes image_bytes
in-range in_range
inside-above inside_above
inside-below inside_below
is-it is_it
joined-as-parts joined_as_parts
joined-memory joined_memory
justified-answer justified_answer
justified-at justified_at
justified-at-answer justified_at_answer
kind-numbered kind_numbered
laid-answer laid_answer
laid-over laid_over
left-as-it-was left_as_it_was
length-told length_told
looked-above looked_above
looked-after looked_after
looked-below looked_below
looked-elsewhere looked_elsewhere
looked-here looked_here
looked-past looked_past
lower-answer lower_answer
lower-asked lower_asked
lower-part lower_part
lower-written lower_written
lowest-failing lowest_failing
more-figures more_figures
most-cells most_cells
next-byte next_byte
none-outside none_outside
none-step none_step
not-before not_before
of-kind of_kind
one-figure one_figure
open-to-all open_to_all
open-to-it open_to_it
operands-text operands_text
or-half or_half
others-accepted others_accepted
outcome-values outcome_values
own-bytes own_bytes
padded-length padded_length
part-answer part_answer
part-laid part_laid
part-written part_written
parts-of parts_of
placed-elsewhere placed_elsewhere
placed-here placed_here
placed-length placed_length
put-before put_before
put-either put_either
ranks-open-to-all ranks_open_to_all
ranks-seen-as-both ranks_seen_as_both
read-fitting read_fitting
record-number record_number
refusal-line refusal_line
refused-at refused_at
refused-at-lowest refused_at_lowest
register-text register_text
rest-set rest_set
same-is same_is
same-lower same_lower
seen-as-both seen_as_both
seen-as-both-by seen_as_both_by
senior-rank senior_rank
set-above set_above
set-holding set_holding
signed-text signed_text
size-kept size_kept
small-bounded small_bounded
split-three split_three
split-two split_two
take-of-set take_of_set
taken-legal taken_legal
taken-passed taken_passed
then-five then_five
then-looked then_looked
through-laid through_laid
through-refused through_refused
union-among union_among
union-step union_step
union-up-to union_up_to
unused-immediate-zero unused_immediate_zero
unused-registers-zero unused_registers_zero
unused-zero unused_zero
whole-memory whole_memory
whole-written whole_written
with-fields with_fields
with-kind with_kind
write-answer write_answer
written-above written_above
written-memory written_memory
written-outside written_outside
written-protected written_protected
"""

TABLE = dict(line.split() for line in NAMES.split("\n") if line)
LETTER = r"[\w'◌·-]"
NAME = re.compile(rf"(?<!{LETTER})(?:{'|'.join(sorted(map(re.escape, TABLE), key=len, reverse=True))})(?!{LETTER})")


def respell(text):
    return NAME.sub(lambda found: TABLE[found.group(0)], text)


def main():
    assert len(set(TABLE.values())) == len(TABLE), "two names fall together"
    for path in sorted(Path("crates").rglob("*")):
        if "out" in path.parts or path.suffix not in (".antt", ".rt", ".edit"):
            continue
        text = path.read_text()
        lines = text.split("\n")
        mark = "--" if path.suffix == ".antt" else "//"
        turned = [line if line.lstrip().startswith(mark) else respell(line) for line in lines]
        if turned != lines:
            path.write_text("\n".join(turned))


if __name__ == "__main__":
    main()
