#!/usr/bin/env python3
"""Respells this repository's own definitions and lemmas as Rattle now spells them: words in snake case, a dash only
between two names. Run once, at the top, after Rattle's own porting script. Names that the checker makes from the
source, as goals and steps of a proof, and the names of functions keep their spelling."""
import os
import re
import subprocess
import sys

# Definitions of specs/ and proofs/ that were written in camel case.
WORDS = """
answerText areaAt bytesText categoryAt categoryByte categoryIs categoryOf categoryText checkBits concatBelow cyclicBits
decayRule eventOf faultIs halfStep headerTests hexByte hexDigit hexText lengthByte lengthField listAt noPacket okText
oneEvent packetAt packetOf pastEnd rateIs rateOf recordAt recordIs recordLines recordOf recordTests recordText reelText
refusalIs refusalOf refusedAt refusedBy refusedText remIn rowText shiftIn spareBits spareBitsSet textBy timesG topCode
unknownCategory verdictText withoutBlanks wrongLength
""".split()

# Lemmas whose dash joined plain words.
LEMMAS = """
after-apart all-at all-below all-returned apart-ten biases-small blanks-keep bound-most category-of-number
category-passes changed-lt code-of-value codeword-data codeword-lt codeword-rem concat-at concat-more concat-stop
decay-apart decay-close decay-in decay-is decay-law decayed-in distinct-numbers distrib-minus each-of-ten ends-agree
every-number fault-at fault-by-header fault-by-records fault-numbers fault-places filled-all filled-more first-front
first-skip first-stop four-changes gap-256 half-below header-lawful header-passes hex-more hex-push history-more
is-record is-ten lawful-by-answer lawful-from-none lawful-header lawful-more lawful-record level-most limited-most
mended-data misses-none nearest-code neg-times none-changed none-from-lawful none-from-not-some not-both not-zero
numbered-right odd-or-even one-changed one-reading-by-each-rule ones-both ones-one ones-pow parity-is plain-erased
plain-only plain-read plain-reading plain-some points-not-zero points-once points-or-none pow-same rate-of-number
record-lawful record-passes reduced-high reduced-is reduced-low reduced-lt refusal-numbers refusal-of-answer
refusal-of-fault refusal-places rem-down rem-low rem-next rem-step rem-summed rounds-down same-data sent-even sent-half
some-changed stays-in-range step-least step-tested summed-even summed-none summed-odd sums-of sums-with suspect-erased
suspect-only suspect-read suspect-reading suspect-some syndrome-is ten-same times-bit times-most two-pushed
unique-remainder unlawful-from-some update-close update-in updated-in value-is value-most values-small xor-back xor-none
xor-twice
""".split()

# Names that would fall together, or that name a word that is renamed.
OTHERS = {
    "record-at": "record_at_lem",  # beside recordAt, the offset of a record
    "getD-most": "get_or_most",
    "getD-ten": "get_or_ten",
    "shiftIn-bit": "shift_in_bit",
    "shiftIn-lt": "shift_in_lt",
    "shiftIn-xor": "shift_in-xor",
    "rem-timesG": "rem-times_g",
    "summed-shiftIn": "summed-shift_in",
    "times-shiftIn": "times-shift_in",
    "corrected-cyclic": "cyclic_bits-corrected",
    "message-cyclic": "message-cyclic_bits",
    "divEuclid": "int_div_euclid",  # in comments: the word of today's library
    "valueOf": "value_of",  # in documents: the porting script respelled these three in the code
    "stepOf": "step_of",
    "codeOf": "code_of",
}


def snake(name):
    return re.sub(r"(?<=[a-z0-9])([A-Z])", lambda m: "_" + m.group(1).lower(), name)


NAMES = {name: snake(name) for name in WORDS}
NAMES.update({name: name.replace("-", "_") for name in LEMMAS})
NAMES.update(OTHERS)

# A name, and not a part of one, nor a step of a proof, as `c.decay-in`.
NAME = re.compile(
    r"(?<![\w'-])(?<!\bc\.)(?<!\bw\.)(?<!\bl\.)("
    + "|".join(sorted(map(re.escape, NAMES), key=len, reverse=True))
    + r")(?![\w'-])"
)


def main():
    listed = subprocess.run(["git", "ls-files"], capture_output=True, text=True, check=True).stdout.split("\n")
    for path in listed:
        if not path.endswith((".rt", ".antt", ".md", ".edit")) or not os.path.isfile(path):
            continue
        text = open(path, encoding="utf-8").read()
        new = NAME.sub(lambda m: NAMES[m.group(1)], text)
        if new != text:
            open(path, "w", encoding="utf-8").write(new)
            print(path)


if __name__ == "__main__":
    sys.exit(main())
