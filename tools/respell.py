#!/usr/bin/env python3
"""Brings the repository's own definitions and lemmas to the spelling of the kit: snake case, and upper camel case for what is a type.

usage: python3 tools/respell.py [FOLDER]      once, at the top of a repository that the kit's port.py has just turned

It rewrites the .rt and .antt files below FOLDER/crates. A name is one of ours where NAMES or SPECIAL lists it; names that the kit makes for a
proof (a path below `c.` or `w.`) are left. Functions of src/, strings and comments of .rt files stay.
"""

import os
import re
import sys

# an own name with a dash becomes snake case, or upper camel case where it begins with a capital
NAMES = """
Alone-at Drafts-own Equal-finds Goes-through Held-bytes In-range In-slot Keeps-own Logs-in-order No-write-lost Not-newer Of-every-run Of-every-world
Own-at Own-holds Read-at Reads-exactly Row-of Shown-reads-back Shows-slot Shows-version Stored-by Well-formed Written-at a-mark a-next abort-does
abort-good abort-inv abort-owns abort-rings abort-step aborted-ring above-master above-slots accepted-inside accepted-own after-copy after-second
after-three age-of all-from-test all-hexadecimal allowing-sound alone-kept among-all among-more answered-version any-draft at-age at-draft at-master
back-inv bad-range before-suc begins-with beside-sound better-nearer blank-first bodies-overwritten body-after body-by body-in body-snoc body-there
body-within both-closed both-from both-open by-draft by-outcome by-step by-user candidate-decides candidate-first candidate-irreflexive
candidate-member candidate-none candidate-picked candidate-test candidate-transitive carry-cover carry-hold carry-match carry-owned carry-section
carry-state carry-with cause-number cause-words cell-master clear-done clear-good clear-owns clear-refused clear-rings clock-mark clock-next
closed-here closed-owns collect-answer collect-done collect-good collect-live collect-owns collect-rings collect-slot collect-stage collect-step
collected-number commit-alone commit-answer commit-does commit-drafts commit-good commit-inv commit-last commit-open commit-owns commit-rings
commit-stamped commit-step commit-turn committed-refused copy-fault decimal-value digit-is done-answer draft-age draft-answer draft-here draft-in
draft-is draft-of draft-slot draft-state drafts-last drafts-own drop-leading edit-good edit-owns edit-rings edited-ring edited-slot empty-ring ent-new
ent-old entry-from entry-from-spells entry-in-is eq-case equal-finds fault-case fault-first fault-second fault-words few-bodies find-answer
find-closed find-draft find-good find-in find-law find-no-hold find-not-served find-own find-owns find-rings find-seen find-step find-version
first-fault first-hour first-is first-master first-opened first-zero following-is foremost-is found-good found-hold found-section found-state
found-version free-age freed-inv freed-ring get-lt get-second gives-by grow-one halfway-all halfway-none halfway-set has-draft has-draft-is has-drafts
held-is hex-digit hex-value hexadecimal-not-return hexadecimal-spelled home-bytes home-written idle-inv if-shows if-within if-written in-cons in-first
in-home in-marks in-second in-section is-decimal is-draft is-entry is-hexadecimal is-of is-some-false kept-version kept-world last-cut last-tick
last-version laws-hold leading-and-following leading-decimal leading-ends leading-goes leading-is leading-stops least-begins least-here least-next
least-none least-some leb-same ledger-new length-bodies length-overwritten length-spelled line-done line-more live-draft load-reply loaded-in
loaded-snoc lock-alone lock-at lock-closed lock-done lock-full lock-good lock-new-good lock-newer lock-others lock-own lock-owns lock-ring lock-rings
lock-step lock-tells lock-unserved locked-by-other logs-in-order low-within lowest-below lowest-is lowest-of lowest-watermark mark-stamp marks-after
marks-are marks-loaded master-entry master-low master-up masters-of nearer-best never-none newer-old newest-is no-draft no-draft-here no-draft-kept
no-draft-version no-drafts-here no-hold no-log no-mark no-newer no-section no-stamp no-such-user no-version no-write-lost none-loaded none-marked
none-new none-small none-some none-there not-before not-other nothing-not number-after number-after-all number-after-gt number-after-more of-door
of-draft of-master of-served of-user oldest-kept oldest-of oldest-place oldest-put on-draft on-i on-some-some once-new once-sound one-age one-ring
one-turn open-answer open-good open-here open-owns open-refused open-rings open-section open-section-decides open-section-first
open-section-irreflexive open-section-member open-section-none open-section-picked open-section-test open-section-transitive opened-as opened-at
opened-by opened-change opened-fed opened-here opening-low option-case or-blank other-body other-slot outset-inv over-master over-ring over-slots
own-answer own-draft own-draft-not own-good own-kept own-step own-step-owns own-step-rings own-up own-user pairs-more pairs-of-spelled pass-answer
passed-up pick-best pick-member pick-none place-decides place-test plain-sound put-case put-done put-good put-master put-match put-owned put-owns
put-rings put-slot put-slot-case raise-master reached-rings read-at read-beside read-fault read-line reads-exactly records-in redraft-case
redraft-match refusal-number refused-found refused-taken replay-suc replicated-alike reply-to reply-words retired-draft return-none return-one
same-between same-draft same-drafts same-last same-reader same-record same-ring same-slot same-stamp sealed-sound section-case section-of sections-of
seen-at-body seen-body sees-entry sees-low sees-version set-counted settle-rings settled-ring settled-stage shown-is shown-reads-back shows-loaded
side-of sixteen-bodies slot-above slot-entry slot-shows slots-edited slots-of slots-put small-none small-some some-path some-small spelled-all
spelled-line spelled-more spells-from-entry spent-abort spent-commit stage-same stage-shows stamp-bounded stamp-of state-number step-good step-owns
step-rings step-up stored-all survey-done survey-good survey-owns survey-rings survey-step table-set take-answer take-bad-range take-closed take-from
take-good take-law take-leading take-no-hold take-owns take-rings take-unheld taken-bytes takes-own takes-within test-ends test-from-all test-goes
test-stops three-answers through-more through-none tick-good tick-of true-false turned-at turned-rings turns-of two-more two-of-three unless-case
unless-fault unless-spent used-after used-on user-fits value-of-digit verdict-inside verdict-outside version-state visible-hold visible-is
watermark-low with-highest with-hold with-home with-master with-oldest with-reader with-section with-slots with-tick with-watermark without-draft
without-return world-of write-beside write-fault writes-after writes-stay written-first written-second written-within zero-case
""".split()

# and these by hand: a function into types is a type, and a name of the older library is today's
SPECIAL = {
    "Goes_on": "GoesOn",
    "In-row": "InRow",
    "candidate-before": "CandidateBefore",
    "foremost-version": "foremost_version",
    "getD-bodies": "get_or_bodies",
    "given_back": "GivenBack",
    "handed-to": "HandedTo",
    "open-section-before": "OpenSectionBefore",
    "place-before": "PlaceBefore",
}

TOKEN = re.compile(r"(?<![A-Za-z0-9_'»·.-])[A-Za-z_«][A-Za-z0-9_'»·]*(?:-[A-Za-z0-9_'·]+)*|(?<=\.)[A-Za-z_][A-Za-z0-9_'·]*(?:-[A-Za-z0-9_'·]+)+")


def respelled(name):
    if name[0].isupper():
        return "".join(w[0].upper() + w[1:] for w in name.split("-"))
    return name.replace("-", "_")


def turn(line, new):
    def word(m):
        before = line[: m.start()]
        if re.search(r"(?<![A-Za-z0-9_'.-])[cw]\.$", before):
            return m.group(0)
        return new.get(m.group(0), m.group(0))

    return TOKEN.sub(word, line)


def main():
    root = sys.argv[1] if len(sys.argv) > 1 else "."
    new = {n: respelled(n) for n in NAMES} | SPECIAL
    changed = 0
    for folder, dirs, files in os.walk(os.path.join(root, "crates")):
        dirs[:] = sorted(d for d in dirs if d != "out")
        for name in sorted(files):
            if not name.endswith((".rt", ".antt")):
                continue
            path = os.path.join(folder, name)
            with open(path, encoding="utf-8") as f:
                old = f.read()
            parts = []
            for line in old.splitlines(keepends=True):
                if name.endswith(".rt"):
                    code, mark, rest = line.partition("//")
                    parts.append("".join(s if s.startswith('"') else turn(s, new) for s in re.split(r'("(?:[^"\\]|\\.)*")', code)) + mark + rest)
                else:
                    parts.append(turn(line, new))
            text = "".join(parts)
            if text != old:
                with open(path, "w", encoding="utf-8") as f:
                    f.write(text)
                changed += 1
    print(f"respell: {changed} files changed")


if __name__ == "__main__":
    main()
