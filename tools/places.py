#!/usr/bin/env python3
"""Counts the places in src/ that docs/DESIGN-PASS.md speaks of, by text, and lists them.

    tools/places.py            the counts, a line for each kind
    tools/places.py KIND       the places of one kind, a line each: file, line, text
"""
import re
import sys
from pathlib import Path

ROOT = Path(__file__).resolve().parent.parent
SOURCES = sorted(ROOT.glob("crates/*/src/**/*.rt"))

# A variant that stands for no value, a refusal or a failure.
NO_VALUE = r"(Malformed|Refused|Unread|NoRoom|Failed|Over|Full|TooLong|Nothing|More|End)"
KEYWORDS = {"if", "else", "while", "for", "match", "return", "let", "mut", "in", "as"}
CONVERSIONS = (
    "wide|long|number|flagged|flags|marks|flag|least|lower|higher|later|lay|copy|copy_from|store|eight|eight_at|"
    "octets|half_in|word_in|alike|same_masks|same_marks|same_window|same_name|lowered|is_lower|is_digit|phase_code|phase_of|"
    "verdict_code|verdict_of|zeros|no_heads|mask_bytes|put_five|clear|high|low|word|renamed|digit|limited|byte_at|"
    "outcome_number|size|opposite"
)


def lines():
    for path in SOURCES:
        for number, text in enumerate(path.read_text().splitlines(), 1):
            yield path.relative_to(ROOT), number, text


def by_line(pattern):
    return [(p, n, t.strip()) for p, n, t in lines() if re.search(pattern, t)]


def items(pattern):
    """Each item that begins with the pattern, with its text up to the closing line at its own indent."""
    for path in SOURCES:
        rows = path.read_text().splitlines()
        for number, text in enumerate(rows):
            found = re.match(pattern, text)
            if found:
                indent = found.group(1)
                end = number
                while end < len(rows) and not re.match(indent + r"[})]", rows[end]) and not rows[end].endswith("{}"):
                    end += 1
                yield path.relative_to(ROOT), number + 1, rows[number : end + 1]


def enums():
    """Own enums with a variant that stands for no value."""
    return [
        (p, n, body[0].strip())
        for p, n, body in items(r"(\s*)(?:pub )?enum ")
        if any(re.match(r"\s*" + NO_VALUE + r"\b", row) for row in body)
    ]


def head(path, number):
    """The head of the function that begins on that line, up to its clauses or its body."""
    rows = (ROOT / path).read_text().splitlines()
    text = ""
    for row in rows[number - 1 :]:
        if re.match(r"\s*(requires|ensures|\{)", row):
            break
        text += row.strip() + " "
        if row.rstrip().endswith("{"):
            break
    return text


def functions():
    for p, n, t in lines():
        if re.match(r'\s*(pub )?(extern "C" )?fn ', t):
            yield p, n, head(p, n)


def parameters(text):
    inner = text[text.index("(") + 1 :]
    depth, count, seen = 1, 0, False
    for c in inner:
        depth += c in "([<{"
        depth -= c in ")]}"
        depth -= c == ">" and depth > 1
        if depth == 0:
            break
        if c == "," and depth == 1:
            count, seen = count + 1, False
        elif not c.isspace():
            seen = True
    return count + seen


def many_parameters():
    return [(p, n, t) for p, n, t in functions() if parameters(t) > 5]


def buffers():
    """A lent buffer with a place or a length beside it, and numbered arrays side by side."""
    found = []
    for p, n, t in functions():
        if re.search(r"&mut \[u8\]", t) and re.search(r"\b(at|to|start): usize", t):
            found.append((p, n, t))
        elif len(re.findall(r": &(?:mut )?(?:Numbers|Successors|Codes|Sides|Heads|Links)\b", t)) > 1:
            found.append((p, n, t))
    return found


def body(path, number):
    """The body of the function that begins on that line, without its clauses."""
    rows = (ROOT / path).read_text().splitlines()
    indent = re.match(r"\s*", rows[number - 1]).group(0)
    first = number - 1
    while not re.match(r".*\{$", rows[first]) or re.match(r"\s*(requires|ensures)", rows[first]):
        if rows[first].endswith("}") and not re.match(r"\s*(requires|ensures)", rows[first]) and first == number - 1:
            return []
        first += 1
    end = first
    while end < len(rows) and rows[end] != indent + "}":
        end += 1
    return rows[first + 1 : end]


def twins():
    """Functions of four lines or more whose bodies are the same but for names and numbers."""
    shapes = {}
    for p, n, t in functions():
        rows = body(p, n)
        if len(rows) < 4:
            continue
        shape = "\n".join(re.sub(r"\b\w+\b", lambda w: w[0] if w[0] in KEYWORDS else "_", row.strip()) for row in rows)
        shapes.setdefault(shape, []).append((p, n, t))
    return [place for places in shapes.values() if len(places) > 1 for place in places]


def proofs(test):
    return [(p.relative_to(ROOT), 0, "") for p in sorted(ROOT.glob("crates/*/proofs/**/*.antt")) if test(p)]


KINDS = {
    "1 enums with a variant for no value": enums,
    "1 flags and numbers of a refusal beside a value": lambda: by_line(r"^\s+(pub )?((ok|failed|more): bool|(refusal|number|kind): u8),$"),
    "1 constants that number kinds and refusals": lambda: by_line(
        r"^(pub )?const (STEP|CHECK|FORK|COPY|APPLY|EQUAL|UNEQUAL|EQUAL_SIGN|UNEQUAL_SIGN): u8"
    )
    + [x for x in by_line(r"^pub const [A-Z_]+: u8 = ") if "refusal" in str(x[0])],
    "1 bare numbers of kinds": lambda: by_line(r"\b(kind|code|variant) (==|<|!=) [0-9]"),
    "2 functions with the same body but for names": twins,
    "3 while and loop": lambda: by_line(r"^\s*('\w+: )?(while|loop)\b"),
    "4 conversions, copies, comparisons by hand": lambda: [
        x for x in functions() if re.search(r"fn (" + CONVERSIONS + r")\b", x[2])
    ],
    "5 functions with more than five parameters": many_parameters,
    "6 buffers with a place beside, arrays side by side": buffers,
    "7 functions with one skeleton and another step": lambda: [
        x for x in functions() if re.search(r"fn (answer|answer_to|run_one|judge|report|main)\b", x[2]) and re.search(r"_lines|_runs", str(x[0]))
    ],
    "8 proofs by position": lambda: proofs(lambda p: p.name == "Proof.antt"),
    "8 proof files with a step that is search rules alone": lambda: proofs(
        lambda p: re.search(r"\(λ c(?: κs)?\. search rules\)|^\S+ c = search rules$", p.read_text(), re.M)
    ),
}


def main():
    if len(sys.argv) > 1:
        for kind, places in KINDS.items():
            if kind.startswith(" ".join(sys.argv[1:])):
                for path, number, text in places():
                    print(f"{path}:{number}: {text}")
        return
    for kind, places in KINDS.items():
        print(f"{len(places()):5}  {kind}")


main()
