#!/usr/bin/env python3
# Counts the places of older forms in the Rattle sources at a commit, as docs/DESIGN-PASS.md names them: what they are, how many
# there are, and with --list where.
#   python3 tools/places.py [--list] [COMMIT]
# With no commit it counts in the files as they stand.
import re
import subprocess
import sys
from pathlib import Path

TOP = Path(__file__).resolve().parent.parent

# point, what, pattern for a line of a source
PLACES = [
    (1, "own enums of the shape of Option or Result", r"^\s*(pub )?enum (Verdict|Step|Ending|Refusal|Outcome|Allotted)\b"),
    (1, "their constructors and patterns in code", r"\b(Verdict|Step|Ending|Refusal|Outcome|Allotted)::"),
    (1, "structs with a flag or a number for none beside a value", r"^\s*(pub )?struct (Places|Lined|Met)\b"),
    (1, "constants for kinds of records and files", r"^\s*(pub )?const \w+_(KIND|FILE): "),
    (1, "functions that answer a number for none", r"\bfn (first_\w+|note)\("),
    (1, "numbers of refusals in code", r"=> \d,$|(of_numbers|Details::new)\(\d|u32 = 17;"),
    (2, "functions that find the first number that passes a test", r"\bfn first_(bad_hop|same_hop|broken|same_pair|bad_link|bad_offset)\("),
    (2, "loops over the offsets of a mask", r"^\s*while (rest|left) != 0"),
    (2, "loops over the records of a file", r"^\s*loop \{"),
    (2, "walks along a chain of lines", r"^\s*while (m|line) < lines"),
    (2, "functions that put an offset into a set", r"\bfn (with|mark)\("),
    (2, "functions that widen or narrow a number", r"\bfn (wide|narrow|long)\("),
    (2, "functions that put a number as so many bytes or words", r"\bfn put_(word|four|number|two|head|line)\("),
    (2, "functions that turn an inport into a resource", r"\bfn port(_of|_at)?\("),
    (2, "readers of one field of a record", r"\bfn (cycle|demand|uses|sends|what|after|router|inp|out|sent|router_of|period_of|slot_of|in_of|out_of|byte_of|word_of|cycle_of|demand_of|hops_of|hops|from_of|to_of|from_router|owner)\("),
    (3, "loops that count by hand: while", r"^\s*while \w+ < \w+(\.len\(\))? \{|^\s*while 0 < m"),
    (3, "loops over a range of numbers: for", r"^\s*('\w+: )?for \w+ in \S.*\.\."),
    (4, "numbers taken apart or put together by / and % and 256", r"% 256|/ 256|256 \*"),
    (4, "conversions by `as`", r" as (u8|u16|u32|usize)\b"),
    (4, "a code for each variant by hand", r"\b\w+::\w+ => \d+,$|=> (of_numbers|Details::new)\("),
    (4, "printing field by field", r"\bfn (number|details|line|inport|show_byte|show_number|show_area)<W"),
    (5, "clauses: a byte is in its file", r"requires.*(p|first) ≤ length s\.now"),
    (5, "clauses: a circuit's number is in its bounds", r"requires.*c < circuits_most|requires.*InBounds"),
    (5, "clauses: a plan may be used", r"requires.*(Usable|Slotted|length p\.old ≡ plan_size)"),
    (5, "clauses: a number is a cycle", r"requires.*\bCycle \w"),
    (5, "clauses: a line's number is in its bounds, or a table goes with its chains", r"requires.*(m < lines_most|Linked)"),
    (5, "clauses: an array has its length", r"requires.*length (sets|grid|masks|ch)\.old ≡"),
    (5, "clauses: where a request's circuits start", r"requires.*\bStarts(At)?\b"),
    (5, "parameters that travel together: a plan and a circuit's number, or masks", r"\bfn .*p: &Plan, (c|m):? "),
    (6, "arrays of numbers with places computed by hand", r"^pub type (Plan|Grid|Sets|Chains) = \[u"),
    (6, "places computed by hand", r"\* (CIRCUIT_SIZE|USE_SIZE|SEND_SIZE|SET_WORDS|CYCLE_MOST|LINE_BYTES)\b|(FIRST|NEXT)_AT \+"),
    (6, "an array with its length beside it", r"pub at: \[usize"),
    (7, "loops that differ only in the step that they run", r"^\s*let (k|step) = step_at\("),
]


def sources(commit):
    if commit is None:
        for path in sorted(TOP.glob("crates/*/src/*.rt")):
            yield str(path.relative_to(TOP)), path.read_text()
        return
    names = subprocess.run(["git", "ls-tree", "-r", "--name-only", commit, "crates"], cwd=TOP, capture_output=True, text=True, check=True)
    for name in names.stdout.split("\n"):
        if re.fullmatch(r"crates/\w+/src/.*\.rt", name):
            yield name, subprocess.run(["git", "show", f"{commit}:{name}"], cwd=TOP, capture_output=True, text=True, check=True).stdout


def main():
    words = sys.argv[1:]
    listed = "--list" in words
    words = [w for w in words if w != "--list"]
    if len(words) > 1 or any(w.startswith("-") for w in words):
        sys.exit("usage: places.py [--list] [COMMIT]")
    files = list(sources(words[0] if words else None))
    for point, what, pattern in PLACES:
        found = []
        for name, text in files:
            for number, line in enumerate(text.split("\n"), 1):
                if not line.lstrip().startswith("//") and re.search(pattern, line):
                    found.append(f"{name}:{number}: {line.strip()}")
        print(f"{point}\t{len(found)}\t{what}")
        if listed:
            print("".join(f"\t\t{place}\n" for place in found), end="")


main()
