#!/usr/bin/env python3
"""Random patterns and texts: what Node's RegExp says with the flag `u`, and what the validator says of the rewritten
schema.

    bindings/python/tests/random_patterns.py --program JSCHEMA [--seed N] [--count N]

Of each pattern there are some texts. A pattern that can't be rewritten is counted as left, and must be refused. The
last line is 'N passed, M failed'.
"""
import argparse
import json
import os
import random
import shutil
import subprocess
import sys
import tempfile
from collections import Counter

sys.path.insert(0, os.path.join(os.path.dirname(os.path.abspath(__file__)), ".."))
from jschema.dialects import LATEST  # noqa: E402
from jschema.patterns import read  # noqa: E402
from jschema.rewriting import Rewriting  # noqa: E402

TEXTS = 12
JUDGE = """
const lines = require("fs").readFileSync(0, "utf8").split("\\n").filter((it) => it);
for (const [pattern, texts] of lines.map((it) => JSON.parse(it))) {
  let made = null;
  try { made = new RegExp(pattern, "u"); } catch { }
  console.log(JSON.stringify(made && texts.map((it) => made.test(it))));
}
"""
CHARACTERS = "aabbcAZ019__--. :/$"
ODD = "\t\n\r\x0b\x0c\x1f\x00\x85\xa0\u1680\u2003\u2028\u2029\u3000\ufeff\u200béßſKİ٣𝟘😀\ud7ff\ue000"
ESCAPES = {r"\d": "0519", r"\D": "a-é٣", r"\w": "aZ0_", r"\W": "- éſ\n", r"\s": " \n\xa0\ufeff\u2028", r"\S": "a0é\x85",
           r"\t": "\t", r"\n": "\n", r"\r": "\r", r"\v": "\x0b", r"\f": "\x0c", r"\cJ": "\n", r"\ca": "\x01",
           r"\0": "\0", r"\x41": "A", r"\u0061": "a", r"\u{1F600}": "😀", r"\uD83D\uDE00": "😀", r"\/": "/",
           r"\.": ".", r"\$": "$", r"\p{L}": "aé", r"\P{L}": "0-", r"\p{Lu}": "AZ", r"\uD800": "", ".": "a-é😀"}
CLASSES = {r"\d": "05", r"\w": "a_", r"\s": " \n", r"\W": "-é", r"\S": "a", r"\b": "\x08", r"\-": "-", "a-c": "abc",
           "0-9": "07", "A-Z": "AQ", "[": "[", "&&": "&", "~~": "~", ".": ".", "_": "_", "^": "^",
           r"\^": "^", r"\]": "]",
           r"\uD83D\uDE00": "😀", r"\uDBFF": "", r"\u0000-\uFFFF": "aé", r"\p{L}": "aé", r"\cI": "\t",
           " ": " "}


class Maker:
    """Makes patterns, each with a text that it may match."""

    def __init__(self, seed):
        self.random = random.Random(seed)

    def chance(self, share):
        return self.random.random() < share

    def pattern(self):
        """A pattern: about half have look-around at places where people write it."""
        form = self.random.randrange(11)
        if form < 3:
            return self.alternatives(0, 0.04)
        if form == 10:
            return self.behind_any_width()
        start, body, end = self.conditions(), self.alternatives(1, 0.05), self.conditions(False)
        if form < 5:
            body = f"(?:{body[0]})", body[1]
        elif "|" in body[0]:
            body = self.sequence(1, 0.05)
        first = self.random.choice(["^", "^", "^", "", "^a", "^[a-c]", "^-{2}"])
        last = self.random.choice(["$", "$", "", "b$", "\\d$"])
        if form == 9:
            look, one = self.look(True), self.atom()
            body = f"(?:{look[0]}{one[0]}){self.random.choice(['*', '+', '{2}', '{1,3}'])}", one[1] * 2
        return "".join((first, start, body[0], end if form != 8 else "", last)), f"{first[1:]}{body[1]}{last[:-1]}"

    def behind_any_width(self):
        """A pattern with look-around of any length behind what is of any width, or before that."""
        before, look, after = self.sequence(1, 0), self.look(True), self.sequence(1, 0)
        kind, one = self.random.randrange(4), self.atom()[0]
        if kind == 0:
            some, last = self.random.choice("*+"), self.random.choice(["$", "a", "[b-z]"])
            look = f"(?{self.random.choice('=!')}{one}{some}{last})", ""
        elif kind == 1:
            look = self.look(False)
        elif kind == 2:
            look = f"(?={one}{{0,{self.random.randrange(1, 5)}}}$)", ""
        first, last = self.random.choice(["", "^", "^a*"]), self.random.choice(["", "$", "a*$"])
        return "".join((first, before[0], look[0], after[0], last)), before[1] + after[1]

    def conditions(self, is_ahead=True):
        return "".join(self.look(is_ahead)[0] for _ in range(self.random.choice([0, 0, 1, 1, 2])))

    def look(self, is_ahead):
        body = self.alternatives(2, 0.03)[0]
        if self.chance(0.3):
            body = f".*{body}" if is_ahead else f"{body}.*"
        if self.chance(0.2):
            body = f"{body}$" if is_ahead else f"^{body}"
        elif self.chance(0.15):
            body = f"^{body}" if is_ahead else f"{body}$"
        return f"(?{'' if is_ahead else '<'}{self.random.choice('=!!')}{body})", ""

    def alternatives(self, depth, share):
        count = self.random.choice([1, 1, 1, 1, 2, 3])
        found = [self.sequence(depth, share) for _ in range(count)]
        return "|".join(it[0] for it in found), self.random.choice(found)[1]

    def sequence(self, depth, share):
        found = [self.piece(depth, share) for _ in range(self.random.choice([0, 1, 1, 2, 2, 3, 4]))]
        return "".join(it[0] for it in found), "".join(it[1] for it in found)

    def piece(self, depth, share):
        if self.chance(share):
            return self.look(self.chance(0.7))
        if self.chance(0.06):
            return self.random.choice(["^", "$", r"\b", r"\B"]), ""
        if depth < 3 and self.chance(0.2):
            inner = self.alternatives(depth + 1, share)
            opening = self.random.choice(["(", "(?:", f"(?<n{self.random.randrange(10**6)}>"])
            one = f"{opening}{inner[0]})", inner[1]
        else:
            one = self.atom()
        if self.chance(0.3):
            sign, count = self.random.choice([("*", 2), ("+", 2), ("?", 0), ("??", 1), ("{2}", 2), ("{1,2}", 1),
                                              ("{0,3}", 3), ("{2,}", 3), ("*?", 1), ("{0}", 0)])
            return one[0] + sign, one[1] * count
        return one

    def atom(self):
        kind = self.random.random()
        if kind < 0.45:
            one = self.random.choice(CHARACTERS)
            return ("\\" if one in ".$/" else "") + one, one
        if kind < 0.7:
            escape = self.random.choice(list(ESCAPES))
            return escape, self.some(ESCAPES[escape])
        members = [self.random.choice(list(CLASSES)) for _ in range(self.random.choice([0, 1, 1, 2, 2, 3]))]
        negated = self.chance(0.25)
        if members and members[0] == "^":
            members[0] = r"\^"
        sample = self.some("".join(map(CLASSES.get, members)))
        return f"[{'^' if negated else ''}{''.join(members)}]", self.some("ab0-é\n") if negated else sample

    def some(self, characters):
        return self.random.choice(characters) if characters else ""

    def texts(self, sample):
        """The sample, changes of it, and other texts."""
        found = {sample, ""}
        for _ in range(8 * TEXTS):
            text = sample if self.chance(0.6) else "".join(
                self.random.choice(CHARACTERS) for _ in range(self.random.randrange(6)))
            for _ in range(self.random.randrange(3)):
                at = self.random.randrange(len(text) + 1)
                one = self.random.choice(ODD if self.chance(0.3) else CHARACTERS)
                text = text[:at] + one * self.random.randrange(2) + text[at + self.random.randrange(2):]
            found.add(text)
            if len(found) == TEXTS:
                break
        return sorted(found)


def judged_by_node(node, cases):
    """The verdicts of Node; None for a pattern that it doesn't read."""
    given = "".join(json.dumps(it) + "\n" for it in cases)
    done = subprocess.run([node, "-e", JUDGE], input=given, stdout=subprocess.PIPE, encoding="utf-8", check=True)
    return [json.loads(line) for line in done.stdout.splitlines()]


def schemas_of(patterns):
    """The schema of each pattern, rewritten."""
    for pattern in patterns:
        [(_, text)] = Rewriting("ecma", None).texts([("urn:x", json.dumps({"pattern": pattern}).encode())], LATEST)
        yield json.loads(text)


def outcomes(program, cases, verdicts):
    """What came of each test of each pattern: `pass`, `fail` or `skip`."""
    groups = [{"description": pattern, "schema": schema,
               "tests": [{"description": "", "data": text, "valid": it} for text, it in zip(texts, wanted)]}
              for (pattern, texts), wanted, schema in zip(cases, verdicts, schemas_of(it for it, _ in cases))]
    with tempfile.TemporaryDirectory() as folder:
        path = os.path.join(folder, "suite.json")
        with open(path, "w", encoding="utf-8") as file:
            json.dump(groups, file)
        done = subprocess.run([program, "suite", path], stdout=subprocess.PIPE, encoding="utf-8", check=False)
    found = [[] for _ in groups]
    for line in done.stdout.splitlines()[:-1]:
        outcome, number = line.split(" ")[:2]
        found[int(number.split(".")[0])].append(outcome)
    return found


def compared(program, node, seed, count, block=500):
    """How many tests came to what, and the patterns with a test that failed."""
    maker, counts, failed = Maker(seed), Counter(), []
    for begin in range(0, count, block):
        made = [maker.pattern() for _ in range(min(block, count - begin))]
        cases = [(pattern, maker.texts(sample)) for pattern, sample in made]
        known = [(case, wanted) for case, wanted in zip(cases, judged_by_node(node, cases)) if wanted is not None]
        counts["not read by Node"] += len(cases) - len(known)
        cases, verdicts = [it for it, _ in known], [it for _, it in known]
        for case, wanted, found in zip(cases, verdicts, outcomes(program, cases, verdicts)):
            is_left = read(case[0]) is None and set(found) == {"skip"}
            counts["patterns left" if is_left else "patterns rewritten or the same"] += 1
            counts["matches"] += 0 if is_left else sum(wanted)
            counts["texts compared"] += 0 if is_left else len(found)
            if len(found) != len(wanted) or not is_left and set(found) != {"pass"}:
                failed.append((case[0], [text for text, it in zip(case[1], found) if it != "pass"][:3]))
    return counts, failed


def main():
    parser = argparse.ArgumentParser(description="Compares patterns with Node's RegExp.")
    parser.add_argument("--program", required=True, help="the program jschema")
    parser.add_argument("--seed", type=int, default=1)
    parser.add_argument("--count", type=int, default=20_000, help="how many patterns (default: 20000)")
    given = parser.parse_args()
    counts, failed = compared(given.program, shutil.which("node"), given.seed, given.count)
    for pattern, texts in failed[:20]:
        print(f"FAILED {json.dumps(pattern)} on {json.dumps(texts)}")
    print(", ".join(f"{name}: {count}" for name, count in counts.items()))
    rewritten = counts["patterns rewritten or the same"] + counts["patterns left"]
    print(f"{rewritten - len(failed)} passed, {len(failed)} failed")
    return 1 if failed or not rewritten else 0


if __name__ == "__main__":
    sys.exit(main())
