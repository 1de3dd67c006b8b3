#!/usr/bin/env python3
"""Brings this repository's own definitions, lemmas and record fields to snake case, and its types to camel case.

usage: tools/respell.py            once, at the top, after the kit's port.py; docs/PORT.md tells when it ran

It reads the names that crates/*/specs/*.antt and crates/*/proofs/*.antt declare, and writes them anew in every .antt file, in the ghost parts of every
.rt file, in the edits, in tests/wrong_rules.py and between backquotes in the pages. Functions, types of src/, strings and comments keep their names.
"""
import os
import re
import sys

# Where the plain rule makes two names one, the lemma on a definition gets "_is" after its name; and operators in a name become words.
OTHER = {
    "changedBy": "after_changes",
    "flag-door": "flag_door_is",
    "has-second": "has_second_is",
    "in_field": "in_field_is",
    "in-range": "in_range_is",
    "is-mode": "is_mode_is",
    "is-status": "is_status_is",
    "moved-to": "moved_to_is",
    "no-set": "no_set_is",
    "not-built": "not_built_is",
    "pixel-at": "pixel_at_is",
    "plot-budget": "plot_budget_is",
    "plot-text": "plot_text_is",
    "same_number": "same_number_is",
    "same-pixel": "same_pixel_is",
    "second-corner": "second_corner_is",
    "turned-away": "turned_away_is",
    "week-at": "week_at_is",
    "is-lessZ": "is_less_z",
    "is-mostZ": "is_most_z",
    "≤-fact": "most_fact",
    "<-fact": "less_fact",
    "≤-goal": "most_goal",
    "<-goal": "less_goal",
}
# In one file a name is a lemma, elsewhere a field.
IN_FILE = {"crates/demands/proofs/Places.antt": {"is-lit": "is_lit_is"}}

# What port.py has spelled anew itself in .rt and .antt files, and not in pages, edits and tests.
PORTED = """
inRange a-word add-is add-wide add-words all-are all-fit all-keep all-of all-right all-there arrives-at at-in at-most below-power below-two bit-is
blank-none both-false both-is both-true both-ways by-a-word by-down by-kind by-last by-mode byteOf carried-first cast-fits cellOf choose-spec
clear-spec done-next done-order each-step either-true endOf ends-there enum-told fetch-spec fill-spec first-fits firstOf fits-by flag-run free-back
from-nothing given-back goes-to high-is in-both in-count in-either in-field in-one in-words index-at index-below index-is indexOf inside-both is-among
is-same is-word isAt isCode isSet itemOf keeps-spec kept-at last-one lastOr le-yes lt-no lt-yes machineOf main-spec mark-spec modeOf moved-out movedTo
mul-low mul-wide mul-words near-parts negated-fits no-cell no-digit no-mode no-place no-row no-stop none-inside none-left none-of not-equal not-first
nth-up numberIn numberOf one-at-most one-cell one-further one-more one-of one-place one-spec one-word onlyIf op-fits or-else other-byte part-up
passedBy past-first placeOf put-same put-spec raised-is read-spec reads-so refusal-is right-of row-at row-more rowAt rows-all rows-at run-fits
run-length run-spec same-after same-check same-end same-length same-memory same-number same-size same-tag set-there shapeOf short-back size-few
size-is some-number some-of start-spec step-fits step-keeps step-spec stop-is store-length store-spec stored-at sub-parts sub-wide sum-below sum-fits
sum-is taken-out the-rest there-and-back too-far too-long too-many too-short turned-move two-cells value-out walk-turn wayOf weight-is whole-run
wide-fits wide-is withFlags wordAt wordIn words-are wordsIn wordsOf
""".split()

DECLARED = re.compile(r"^ *(?:(?:abbrev|opaque|unfoldable|pub|instance|infixl?r? \d+)\s+)*(?:(?:record|data)\s+)?([^\s:(){},;.=|]+)(?:(?:\s+(?:[({].*?[)}]|[^\s:(){},;=|]+))*?)\s*:(?:\s|$)")
TOKEN = re.compile(r"[^\s(){},;.«»\"'`]+'*")
GHOST = re.compile(r"\bghost use [^;]*;|\b(?:requires|ensures)\b[ \w]*\{|\bghost [\w ]+[:=] *\{")


def snake(name):
    if name[0].isupper():
        return "".join(w[0].upper() + w[1:] for w in name.split("-")) if "-" in name else name
    name = name.replace("-", "_").replace("′", "'")
    return re.sub(r"(?<=[a-z0-9])([A-Z])", lambda m: "_" + m[1].lower(), name)


def files(ends):
    for folder, folders, names in os.walk("crates"):
        folders[:] = sorted(f for f in folders if f != "out")
        for name in sorted(names):
            if name.endswith(ends):
                yield os.path.join(folder, name)


def declared():
    found = set()
    for path in files(".antt"):
        if not re.fullmatch(r"crates/\w+/(specs|proofs)/\w+\.antt", path):
            continue
        for line in open(path):
            m = DECLARED.match(re.sub(r"\s*--.*", "", line))
            if m and m[1] not in ("use", "mod", "open", "module", "let", "λ", "where", "_"):
                found.add(m[1])
    return found


def main():
    names = declared()
    if "inField" not in names:
        sys.exit("respell: the names are spelled anew already")
    turned = {n: snake(n) for n in names if snake(n) != n}
    plain = dict(turned)
    turned.update(OTHER)
    ported = {n: OTHER.get(n, OTHER.get(snake(n), snake(n))) for n in PORTED if n not in turned}

    def respelled(text, path, more={}):
        here = {**turned, **more, **IN_FILE.get(path, {})}

        def one(m):
            after_dot = m.start() > 0 and text[m.start() - 1] == "."
            return (plain if after_dot else here).get(m[0], m[0])

        return TOKEN.sub(one, text)

    def antt(text, path, more={}):
        lines = []
        for line in text.split("\n"):
            m = re.match(r"(.*?)(\s*(?<!\S)--(?: .*)?)$", line)
            code, comment = (m[1], m[2]) if m else (line, "")
            lines.append(respelled(code, path, more) + quoted(comment, path))
        return "\n".join(lines)

    def quoted(text, path):
        return re.sub(r"`([^`\n]+)`", lambda m: "`" + page_name(m[1], path) + "`", text)

    def page_name(text, path):
        """A name of a page: `File.name` or `name`; a path or a call is left."""
        m = re.fullmatch(r"((?:[A-Z]\w*\.)?)([^\s.]+)", text)
        return m[1] + {**ported, **turned}.get(m[2], m[2]) if m else respelled(text, path, ported)

    def source(text, path):
        out, at = [], 0
        while m := GHOST.search(text, at):
            end = m.end()
            if text[end - 1] == "{":
                deep = 1
                while deep:
                    deep += {"{": 1, "}": -1}.get(text[end], 0)
                    end += 1
            out += [text[at : m.start()], respelled(text[m.start() : end], path)]
            at = end
        return "".join(out) + text[at:]

    def edit(text, path):
        return "\n".join(antt(line, path, ported) if line.startswith(("old:", "new:")) else line for line in text.split("\n"))

    def rules(text, path):
        def rule(m):
            return m[1] + re.sub(r"(?<=')(?:[^'\\]|\\.)*(?=')", lambda s: respelled(s[0], path, ported), m[2])

        return re.sub(r"(?m)^(    \((?:WRONG|SAME), '[^']*', '\w+', )(.*)$", rule, text)

    pages = ["README.md"] + [os.path.join(d, f) for d in ("docs", "docs/landings") for f in sorted(os.listdir(d)) if f.endswith(".md")]
    work = [(p, antt) for p in files(".antt")] + [(p, source) for p in files(".rt")] + [(p, edit) for p in files(".edit")] + [(p, quoted) for p in pages] + [("tests/wrong_rules.py", rules)]
    for path, turn in work:
        text = open(path).read()
        new = turn(text, path)
        if new != text:
            open(path, "w").write(new)
    print(f"respell: {len(turned)} names")


main()
