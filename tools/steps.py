#!/usr/bin/env python3
"""Turns what the older kit's proofs by hand cite to the names of today's kit: steps, places, obligations, invariants.

usage: tools/steps.py CRATE NAMES [FUNCTION..]

CRATE is a crate's folder and NAMES the file names.json that `rt check --generated FOLDER --old-names` writes there: for each function its
places, each with the one before it and the old and new name of its step, and its obligations, old and new. Only Proof.antt files whose last
declaration is `tie.close (tie.spec ..)` are turned, each once: what one run wrote, another would turn again. What it could not count it prints,
and `rt check` decides.
"""

import json
import os
import re
import sys

WORD = r"[^\s(){}.;,@\"«»\[\]\\]+"
NAME = r"[A-Za-zμ_][\w'₀-₉-]*"
SPEC = re.compile(r"tie\.close\s*\(\s*tie\.spec\b(.*)\)\s*$", re.S)
# Fields of a step or of a start: what is behind one of them is no place.
FIELD = re.compile(r"\.(args|requires|ensures|result|new|invariant|inv|given|is)\b")


def alike(name):
    """Names that differ in dashes, underscores and capitals only are one."""
    return re.sub(r"[-_]", "", name).lower()


def arguments(text, start):
    """The spans of the arguments of an application whose arguments begin at `start`."""
    spans, depth, first = [], 0, None
    for at, sign in enumerate(text):
        depth += (sign in "([{") - (sign in ")]}")
        if sign in " \n\t" and depth == 0:
            if first is not None:
                spans.append((start + first, start + at))
            first = None
        elif first is None:
            first = at
    if first is not None:
        spans.append((start + first, start + len(text)))
    return spans


class Function:
    """What names.json says of a function."""

    def __init__(self, said):
        self.loops = {alike(loop[0][0]): loop[0][1] for loop in said["loops"]}
        self.old_needs = [need[0] for need in said["needs"]]
        self.needs = [need[1] for need in said["needs"]]
        self.params = said["params"]
        self.places = said["places"]
        self.steps, self.parts = {}, {}
        for _, _, (old, new), _, _ in said["places"]:
            self.steps.setdefault(alike(old), new)
        for _, _, (old, new), _, _ in said["places"]:
            if old == new:
                self.steps[alike(old)] = new
        for arm in filter(None, said["arms"]):
            for field, step, path in arm[2]:
                if path:
                    self.parts.setdefault(alike(step), {})[tuple(path)] = f"{arm[0]}.{field}"
        self.place, self.before = self.tree(said)
        self.asked = [self.place.get(alike(asked[0])) for asked in said["asked_at"]]

    @staticmethod
    def tree(said):
        """Each old place's name today, where the places of an arm are one, and the place before each."""
        names = set(said["places_by_name"])
        place, before = {}, {}
        for (old, *_), name in zip(said["places"], said["places_by_name"]):
            arm = re.match(r"(In[-_].*)-\d+$", name)
            place[alike(old)] = arm[1] if arm and arm[1] in names else name
        for old, parent, *_ in said["places"]:
            here, there = place[alike(old)], place.get(alike(parent)) if parent else None
            if here != there:
                before.setdefault(here, there)
        return place, before

    def distance(self, here, there):
        count = 0
        while here is not None and here != there:
            here, count = self.before.get(here), count + 1
        return count if here == there else None


def without_settled(text, function):
    """Without the answers of obligations that today's kit settles: the bounds of a literal that is lent as a slice, in front of a call's."""
    spec = SPEC.search(text)
    spans = arguments(spec[1], spec.start(1))
    spare = len(spans) - len(function.needs) - 2 * len(function.loops)
    two = lambda it: re.match(rf"\(λ {NAME} κs", it) or re.search(rf"(?m)^{re.escape(it)} {NAME} κs", text)
    gone, at = [], 0
    for first, last in spans[2 * len(function.loops) :]:
        asks = at < len(function.needs) and re.search(r"-requires(-\d+)?$", function.old_needs[at])
        if asks and not two(text[first:last]) and len(gone) < spare:
            gone.append((first, last))
        else:
            at += 1
    if len(gone) != max(spare, 0):
        print("obligations and answers differ in number by", spare)
        return text
    for first, last in reversed(gone):
        answer = text[first:last]
        text = text[:first].rstrip() + text[last:]
        if not answer.startswith("("):
            text = re.sub(rf"(?m)^{re.escape(answer)} : tie\.Need-[^\n]*\n{re.escape(answer)} [^\n]*\n(?: [^\n]*\n)*\n", "", text)
    return text


def without_lets(text):
    """Places that a `let` binds are written out from where they start."""
    places, out, done = {}, [], 0
    either = re.compile(
        rf"let ({NAME}) = ({NAME})((?:\.before)+) in\s*|^({NAME})\b[^\n]* : |(?<![\w.'-])({NAME})((?:\.before)*)(?![\w'₀-₉-])(\.?)", re.M
    )
    for found in either.finditer(text):
        out.append(text[done : found.start()])
        done = found.end()
        bound, source, back, signature, used, more, dot = found.groups()
        if bound:
            root, count = places.get(source, (source, 0))
            places[bound] = (root, count + back.count(".before"))
        elif used in places and not text[: found.start()].endswith("let "):
            root, count = places[used]
            out.append(root + ".before" * (count + more.count(".before")) + dot)
        else:
            places = {} if signature else places
            out.append(found[0])
    return "".join(out) + text[done:]


def counted(text, function):
    """`helper c.before.before`, where the helper takes a place, with as many steps back as today's places want."""
    takes, gives = {}, {}
    signature = rf"(?m)^(?:abbrev )?(?:pub )?({WORD}) : (?:\({NAME} : )?tie\.({WORD})(?: [^)→]*)?\)?(?: →| [{{(])(.*)$"
    for found in re.finditer(signature, text):
        given = re.match(rf" tie\.({WORD})(?: [^→]*)?$", found[3])
        if alike(found[2]) in function.place:
            takes[found[1]] = function.place[alike(found[2])]
        if given and alike(given[1]) in function.place:
            gives[found[1]] = function.place[alike(given[1])]
    spec = SPEC.search(text)
    spans = arguments(spec[1], spec.start(1))[-len(function.asked) :]
    regions = [(first, last, asked) for (first, last), asked in zip(spans, function.asked)]
    at = takes | {text[first:last]: asked for first, last, asked in regions}
    for found in re.finditer(rf"(?m)^({WORD}) {NAME}\b[^=\n]* =(?:.|\n)*?(?=\n\n|\Z)", text):
        if found[1] in at:
            regions.append((*found.span(), at[found[1]]))
    for found in re.finditer(rf"(?m)^(?:abbrev )?(?:pub )?({WORD}) : \({NAME} : tie\.(?:.|\n)*?(?=\n\1 )", text):
        if found[1] in takes:
            regions.append((*found.span(), takes[found[1]]))
    for first, last, place in sorted(regions, key=lambda it: it[:2], reverse=True):
        text = text[:first] + region(text[first:last], place, takes, gives, function) + text[last:]
    return text


def region(part, place, takes, gives, function):
    """The same in the body of one answer or helper, or in its signature, whose place is known."""
    binder = re.match(rf"\(λ ({NAME})", part) or re.match(rf"(?:abbrev )?(?:pub )?{WORD} : \(({NAME}) : ", part) or re.match(rf"{WORD} ({NAME})", part)
    if not binder or place is None:
        return part

    def one(found):
        count = function.distance(place, takes[found[1]]) if found[1] in takes else None
        return found[0] if count is None else f"{found[1]} {binder[1]}" + ".before" * count

    part = re.sub(rf"(?<![\w.'-])({WORD}) {binder[1]}((?:\.before)*)(?![\w'.-])", one, part)
    name = re.match(WORD, part)[0] if re.match(WORD, part) else ""
    count = function.distance(takes[name], gives[name]) if name in takes and name in gives else None
    return part if count is None else re.sub(rf"= *\n? *{binder[1]}((?:\.before)*)\s*$", f"= {binder[1]}" + ".before" * count, part)


def no_places(text):
    """The names that are bound to something other than a place."""
    helpers = set(re.findall(rf"(?m)^(?:abbrev )?(?:pub )?({WORD}) : [^\n]*→ tie\.", text))
    names = set(re.findall(r"(?m)^use \S+ as (\S+)$", text)) - {"tie", "lts"}
    for found in re.finditer(rf"let ({NAME}) (?:: [^=]*)?= ((?:.|\n)*?) in\b", text):
        helper = re.match(rf"\(?({WORD}) ", found[2])
        if not (helper and helper[1] in helpers) or FIELD.search(found[2]):
            names.add(found[1])
    for group in re.findall(r"let \(([^()]*)\) = ", text) + re.findall(r"λ \(([^()]*)\)\.", text):
        names.update(name.strip() for name in group.split(","))
    return names - {"c"}


def steps_named(text, function):
    """Each step by its name of today, directly from the place in hand."""
    others = no_places(text)

    def one(found):
        head, back, step, rest = found[1], found[2], found[3], found[4] or ""
        if step == "before" or head in others or head[0].isupper():
            return found[0]
        if step.endswith("_lem") and alike(step) not in function.steps:
            step = step[: -len("_lem")]
        path = rest.split(".")[1:]
        for count in range(len(path), 0, -1):
            part = function.parts.get(alike(step), {}).get(tuple(path[:count]))
            if part:
                return ".".join([head, part, *path[count:]])
        if alike(step) in function.steps:
            return f"{head}.{function.steps[alike(step)]}{rest}"
        return f"{head}.{step}{rest}" if back else found[0]

    return re.sub(rf"((?<![\w.'-]){NAME}|\))((?:\.before)*)\.({WORD})((?:\.{WORD})*)", one, text)


def fields_named(text, function, params):
    """The fields of steps: tests, invariants, the start's clause, what a call leaves in what it was lent, and parameters by number."""
    text = re.sub(r"(\.if-[^\s.()]+|\.[^\s.()]*-test)\.taken\b", r"\1.true", text)
    text = re.sub(r"(\.if-[^\s.()]+|\.[^\s.()]*-test)\.left\b", r"\1.false", text)
    for loop in function.loops.values():
        text = re.sub(re.escape(f".{loop}.inv") + r"(?![\w-])", f".{loop}.invariant", text)
    text = re.sub(r"(\)|\bc|\bs|\be)((?:\.before)*)\.pre\b(?![\w'-])", r"\1.requires", text)
    for _, _, (_, step), callee, _ in function.places:
        for at, name in reversed(list(enumerate(function.params.get(callee, [])))):
            for word in ("new", "last"):
                text = re.sub(re.escape(f".{step}.{word}" + ".1" * at + ".0") + r"(?![\w'-]|\.[01]\b)", f".{step}.new.{name}", text)
    heads = ["args", *re.findall(rf"let ({NAME}) = [^\n]*\.args in", text)]
    for head in heads:
        for at, name in enumerate(params):
            text = re.sub(rf"(?<![\w'-]){head}\.t{at + 1}(?![\w'-])", f"{head}.{name}", text)
        if "res" in params:
            text = re.sub(rf"(?<![\w'-]){head}\.result\b(?![\w'-])", f"{head}.res", text)
    return text


def types_named(text, function):
    """The types of invariants, places and obligations."""
    spec = SPEC.search(text)
    answers = [text[first:last] for first, last in arguments(spec[1], spec.start(1))][2 * len(function.loops) :]
    needs = dict(zip(answers, function.needs))

    def one(found):
        loop = re.match(r"(invariant|decreases)[-_](.*)$", found[2])
        if loop and alike(loop[2]) in function.loops:
            return f"{found[1]}.{loop[1]}-{function.loops[alike(loop[2])]}"
        return f"{found[1]}.{function.place.get(alike(found[2]), found[2])}"

    text = re.sub(rf"(?<![\w.'-])(tie|lts)\.({WORD})", one, text)
    return re.sub(rf"(?m)^({WORD}) : tie\.Need-{WORD}", lambda it: f"{it[1]} : tie.Need-{needs[it[1]]}" if it[1] in needs else it[0], text)


def parameters(crate, function):
    """The parameters of a function, in order."""
    for folder, _, files in os.walk(os.path.join(crate, "src")):
        for file in files:
            with open(os.path.join(folder, file), encoding="utf-8") as source:
                found = re.search(rf"fn {function}(?:<[^>]*>)?\(((?:[^()]|\([^()]*\))*)\)", source.read())
            if found:
                return re.findall(r"(?:^|,)\s*(?:mut )?(\w+)\s*:", found[1])
    return []


def turned(text, function, params):
    if not SPEC.search(text):
        return text
    text = re.sub(r"\.args\.result\b(?![\w'-])", ".args.res", text) if "res" in params else text
    text = counted(without_lets(without_settled(text, function)), function)
    return types_named(fields_named(steps_named(text, function), function, params), function)


def main(crate, names, only):
    with open(names, encoding="utf-8") as file:
        said = json.load(file)
    for module, of in said.items():
        if not module.endswith(".Lts"):
            continue
        path = module.split(".", 1)[1][: -len(".Lts")]
        proof = os.path.join(crate, "proofs", path.replace(".", "/"), "Proof.antt")
        if (only and path.split(".")[-1] not in only) or not os.path.exists(proof):
            continue
        with open(proof, encoding="utf-8") as file:
            old = file.read()
        new = turned(old, Function(of), parameters(crate, path.split(".")[-1]))
        if new != old:
            with open(proof, "w", encoding="utf-8") as file:
                file.write(new)


if __name__ == "__main__":
    if len(sys.argv) < 3:
        sys.exit(__doc__)
    main(sys.argv[1], sys.argv[2], sys.argv[3:])
