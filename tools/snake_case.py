#!/usr/bin/env python3
"""Brings the repository's own words to snake case, as the library has them: `answer-of` becomes `answer_of`.

usage: python3 tools/snake_case.py [FOLDER]     once, in a tree that has the old names

It goes over the clauses, definitions and proofs below FOLDER/crates, the must-fail edits and the documents. Functions of
src/, strings and the names of files stay as they are. Labels that the check makes (`loop-i-preserved`) keep their dashes;
within them a function has its name of the source, so that `push-reserved-requires` becomes `push_reserved-requires`.
"""

import os
import re
import sys

# The repository's definitions, lemmas and fields that had dashes. Two take another name, which a function in scope has.
WORDS = """
ahead-falls ahead-fits alike-length alike-no alike-yes all-at all-base all-each all-formed all-formed-ground
all-formed-prop all-ground-prop all-newest all-older all-only alone-left alone-right alone-settled answer-of
answer-same answers-moved apart-settled argument-below argument-done argument-lower argument-rank argument-term
arguments-below arguments-clash arguments-lower arguments-next arguments-none arguments-of arguments-same arities-in
arities-of arity-kept arity-read ask-moved ask-single asked-rest asked-spent at-best at-end base-prop before-pushed
begin-inside begin-less begin-room begin-trying begin-visited begin-visiting belongs-to below-room both-made
both-sides bound-single bucket-at budget-law call-of choice-granted choice-single choices-inner chosen-or clash-back
clash-moved clash-part clash-trying class-below class-forced closed-coarser compound-over compound-prop copied-layer
count-single count-tries count-walk cut-back dead-law dead-tries dead-walk deep-apart deep-formed deep-same
denied-step denied-stop denied-width done-begun done-fresh done-trying doubled-of each-side end-playing end-trying
entries-forced entries-true entry-below entry-joined entry-leads entry-stays equal-joined equal-step equal-stop
equal-terms equal-turned equal-width equation-of exact-apart exact-joined exact-table example-moved few-more
finish-numbered finish-onward first-lawful first-stands first-telling first-theory firsts-again firsts-back
firsts-new firsts-none firsts-note firsts-skip flat-parents flat-rooted forced-back forced-class forced-decided
forced-entries forced-first forced-last forced-more forced-moved forced-on forced-part forced-prop forced-true
forest-places forest-same formed-ground formed-prop found-joining found-law free-decides free-group free-headless
free-numbered free-share free-shared free-tower freest-at freest-joined freest-moved fresh-over from-bare from-both
granted-or ground-prop group-agrees group-bound group-numbered group-numbered-in group-single had-at had-both
had-end had-first had-moved had-push had-same had-step had-stop had-take half-doubled head-alone head-argument
head-bound head-class head-compound head-lowest head-name head-row head-tree head-writing head-written
headless-apart headless-free headless-name heads-firsts heads-in heads-tops height-is height-on holds-part
if-not-none in-at indexed-none indexed-plain indexed-push indexed-rows join-cases join-closed join-coarser
join-fewer join-parents join-respects join-rooted join-tops join-turn join-two joined-heads joined-parents
joined-true joins-coarser joins-older joins-push joins-rooted joins-tops joins-values keep-length keep-short
keep-take kept-paired kind-number last-moved last-pushed latest-kept latest-more latest-moved latest-prop
layer-ahead layer-kept layer-new layer-read layers-back layers-first layers-kept layers-push layers-still
layers-taken leader-passes leads-it led-ask led-begin led-beyond led-choice led-close led-foreign led-found led-full
led-long led-next led-open led-post led-same led-scopes led-unopened led-unshown literals-of low-high lower-less
lowest-picked lowest-single lowests-at lows-firsts map-agrees map-places map-through mark-here mark-other
mark-within meets-moved merge-alike merge-clash merge-fewer merge-left merge-next merge-parents merge-right
merge-same merge-unlike merged-trans name-bare name-over name-told named-passed named-term never-false never-moved
new-placed newest-exact newest-read newest-settled newest-table next-class next-inside next-playing next-room
next-trying next-visiting no-clash no-width none-at none-back none-law none-less none-moved none-some not-fresh
not-it noted-keeps noted-long nothing-of number-closed number-coarser number-congruent number-ordered number-single
number-sound numbers-below numbers-list of-both old-placed older-or-newest on-alone on-at on-decides on-forced
on-place one-law one-term one-tries one-walk only-all only-append only-length only-short only-take only-there
onward-refl onward-trans open-back open-end open-moved other-tries other-walk outcome-of over-compound over-formed
over-of over-row over-same over-tree over-trying own-up pair-back pair-begun pair-clashes pair-forced pair-freest
pair-named pair-refusal pair-refuses pair-single pair-takes paired-telling part-clash part-forced part-holds
part-long picked-lowest post-granted post-single product-mark product-none product-positive pushed-had reached-all
reached-inside reached-skip reached-start reached-visit read-row ready-inner ready-next ready-room ready-start
ready-workable refusal-number refusal-passed refusal-term refused-clash refused-moved refuted-clash renamed-first
renamed-second renamed-tree replaced-at replaced-each reply-of rest-inside row-cases row-set rows-many rows-push
rules-moved run-single runs-out same-bucket same-paired same-shown same-side same-sym same-trans second-lawful
second-stands second-telling second-theory settled-fits settled-in settled-moved settled-next settled-shut
settled-table settled-tabled settled-tries settled-walk share-all share-newest share-short share-take sheet-new
sheet-of sheet-oldest sheet-plain sheet-row sheet-symbol short-rule shown-moved side-doubled side-of side-told
size-argument sizes-same skip-trying small-too snoc-none snoc-same solved-same spent-by spent-law stands-forced
stands-in start-visited state-is step-grows step-le step-moved step-prop step-single step-within switch-at
switch-named switch-single switch-telling symbol-prop symbols-plain symbols-push table-in tables-take tag-freest
tag-named tag-single tag-telling taken-had taken-moved taken-one tally-counts tally-grows tally-le tally-less
tally-no tally-passes tally-same tally-within tally-yes tell-bound tell-free telling-in telling-paired telling-refl
telling-trans terms-alone terms-clash terms-next terms-read theory-in times-suc told-all told-by told-class
told-formed told-freest told-ground told-height told-or told-own told-single told-term told-tree told-true
told-world tops-same tower-formed tower-ground tower-same tree-grown tree-head tree-solves tree-telling tree-tower
trees-agree trials-law tries-moved true-back true-here true-moved true-prop uncopied-layer unfit-refuted unseen-le
unseen-less unseen-within unused-mark unused-none unused-product up-flat up-less up-low up-own up-parents up-rooted
up-roots up-tries up-walk used-mark used-more used-moved used-next used-nil used-none value-doubled value-formed
value-is value-name value-single value-told visit-begun visit-head visit-name visit-rest walk-inner walk-moved
walked-found whole-walk width-forest workable-ready world-of writable-head written-push written-take
written-take-all yes-test yes-too
""".split()
OTHER = {"side-of": "side_at"}
OTHER_IN = {"trees": {"told-by": "told_by_table"}}

# The same of words that the first turning of the spelling had renamed in the code already: edits and documents name them still.
TURNED = """
all-back all-keep all-moved all-push all-share asked-of at-left at-place at-right begun-fresh both-true by-row
by-side copied-more count-next cut-short depth-same drop-at end-of first-small free-part group-of has-part
holds-same if-none is-found keep-all keep-append kept-refl kept-trans length-part map-same merge-none met-all met-by
no-test not-more noted-small number-of one-number one-of only-here part-ext part-of passed-on place-read placed-at
ready-moved row-is row-plain row-read rows-in rows-of rule-moved run-moved same-refl same-test shown-of stands-on
step-less table-at take-back told-at told-free told-in told-named told-same tree-apart tree-set up-kept up-to
walked-start walked-step wide-at within-more world-joined
""".split()

# Functions whose names have underscores, ours and the library's: labels that speak of them were written with dashes.
FUNCTIONS = """
a_term_inside_itself_clashes add_compound add_pair as_slice back_keeps_the_oldest both_base bucket_of bucket_over
copy_within deref_mut equal_arguments_make_equal_terms equations_end_at_256 extend_from_slice far_terms find_heads
from_elem groups_go_by_lowest_member has_all inside_itself is_compound is_found is_name is_on is_open layer_at
leads_names merge_arguments merge_terms names_are_told_heads_or_towers next_layer no_half_stays own_head part_terms
pass_on print_ask print_assumed print_call print_example print_forced print_literals print_reply print_symbol
print_term print_told push_reserved push_symbol put_away read_log read_sighting refusals_come_in_order side_of
slice_bounds switches_end_at_255 symbols_end_at_16 tags_end_at_1023 terms_end_at_1024 told_by two_steps_apart
visit_all visit_arguments with_a_switch with_capacity write_head write_name write_over
""".split()

TOKEN = re.compile(r"[A-Za-z0-9_'\u00ab\u00bb\u207b\u2081-\u2089*-]*[A-Za-z0-9_'*]")
STRING = re.compile(r'"(?:[^"\\]|\\.)*"')
DASHED = [(re.compile(r"(?<![a-z0-9_])" + f.replace("_", "-") + r"(?![a-z0-9_])"), f) for f in sorted(FUNCTIONS, key=len, reverse=True)]


def table(crate):
    words = {w: w.replace("-", "_") for w in (WORDS + TURNED if crate is None else WORDS)}
    words.update(OTHER)
    words.update(OTHER_IN.get(crate, {}))
    return words


def turned(text, words, labels):
    def one(m):
        token = m.group(0)
        called = labels and text[m.start() - 1 : m.start()] == "." and token.replace("-", "_") in FUNCTIONS
        if token in words and not called:
            return words[token]
        if labels and "-" in token:
            for dashed, name in DASHED:
                token = dashed.sub(name, token)
        return token

    return TOKEN.sub(one, text)


def outside_strings(text, words):
    out, at = [], 0
    for m in STRING.finditer(text):
        out += [turned(text[at : m.start()], words, False), m.group(0)]
        at = m.end()
    return "".join(out) + turned(text[at:], words, False)


def rewritten(path, change):
    with open(path, encoding="utf-8") as f:
        old = f.read()
    new = change(old)
    if new != old:
        with open(path, "w", encoding="utf-8") as f:
            f.write(new)


def main(argv):
    root = argv[0] if argv else "."
    for folder, dirs, files in os.walk(os.path.join(root, "crates")):
        dirs[:] = sorted(d for d in dirs if d != "out")
        crate = os.path.relpath(folder, os.path.join(root, "crates")).split(os.sep)[0]
        words = table(crate)
        for name in sorted(files):
            path = os.path.join(folder, name)
            if name.endswith(".antt"):
                rewritten(path, lambda t: turned(t, words, True))
            elif name.endswith(".rt"):
                rewritten(path, lambda t: outside_strings(t, words))
            elif name.endswith(".edit"):
                rewritten(path, lambda t: outside_strings(t, table(None) | words))
    pages = [os.path.join(root, "README.md")] + [os.path.join(root, "docs", f) for f in sorted(os.listdir(os.path.join(root, "docs")))]
    for path in pages:
        if path.endswith(".md") and not os.path.basename(path).startswith("PORT"):
            rewritten(path, lambda t: turned(t, table(None), False))
    return 0


if __name__ == "__main__":
    raise SystemExit(main(sys.argv[1:]))
