#!/usr/bin/env python3
# Brings the repository's own names to today's spelling, once, after port.py: definitions, lemmas and local names in snake case,
# with no dash, no capital inside and no middle dot. Names of the kit, of what Rattle makes, and of src/ stay as they are. Today's answers
# are named after goals, with dashes, so it does nothing where the port's page says that it has run.
import glob
import os
import re
import sys

PLAIN = r"[^\s(){}\[\],;:.λ→×≡⊎\"`|«»]+"
OWN = ("laws link inplace stage row layout soundness image whole line claims bench desk lines turning").split()


def antt():
    return sorted(glob.glob("crates/*/specs/**/*.antt", recursive=True) + glob.glob("crates/*/proofs/**/*.antt", recursive=True))


def new(name):
    if name in APART:
        return APART[name]
    s = name.rstrip("·").replace("·", "_").replace("-", "_")
    s = re.sub(r"([a-z0-9'])([A-Z])", lambda m: m.group(1) + "_" + m.group(2).lower(), s)
    return re.sub(r"_+", "_", s)


# What port.py respelled in code, but not in pages and edits.
PORTED = """
above-on add-at add-low add-wide after-is after-turn all-map answerIn answerOf as-long as-read asked-is at-first at-least at-most
at-once at-out at-row at-stage below-on both-hold by-bytes by-lines by-number by-turn callOf cond-map distance-back each-all
each-append each-more each-same enum-told every-holds every-more firstAt firstOf fits-read fresh-kept from-first given-is
goes-wrap head-in held-after held-back holds-at holds-on imageOf is-known is-within kept-put knows-on leads-one leaves-none
left-or length-before linesFrom linkAt linkIn linkOf log-back log-is logAt no-number no-other no-room no-step none-left not-found
not-in not-there numberAt numberOf of-image of-none one-line one-more one-of one-of-two one-on one-told only-zero or-right orElse
own-is past-end place-in placeIn put-next put-one put-same put-then put-three put-two put-written puts-first raised-at reads-on
record-is rest-back room-after room-for same-answer same-length same-line same-not same-number same-out same-self same-taken
same-true says-is says-so shared-back sharedAt some-left stage-is stands-at stays-within step-given step-is step-keeps stepOf
sub-at swap-is table-is takenOf textOf the-same to-turned too-far turn-is turnOf two-digits two-here upd-other upd-same whole-long
withS
""".split()

# Names that would fall together with another one, and words that antt keeps for itself.
APART = {
    "as·read": "was_read",
    "no·room": "is_full",
    "noStep": "no_step_row",
    "parts-put": "from_parts_put",
    "open·": "is_open",
    "yes·": "yes_there",
    "no·": "no_there",
    "length·": "length_is_k",
    "module·": "«module»",
}


def wants(name):
    if re.match(r"^[A-Z]", name):
        return "-" in name or "·" in name
    return bool(re.search(r"[A-Za-z0-9'₀-₉]-[A-Za-z0-9]|[a-z0-9][A-Z]|·", name))


def declared(path, text):
    found = set()
    for line in text.split("\n"):
        if line.strip().startswith("--") or line.strip().startswith("use "):
            continue
        # a signature, at any depth
        m = re.match(r"^\s*(?:abbrev |unfoldable )?(?:pub )?(?:data |record |ruleset )?(" + PLAIN + r")\s*(?::|\(|=|$|\{)", line)
        if m:
            found.add(m.group(1))
        # binders: (a b : T), {a : T}, λ (a : T), let a = .., let a : .., λ a b.
        for g in re.findall(r"[({]((?:" + PLAIN + r"\s+)*" + PLAIN + r")\s*:", line):
            found.update(g.split())
        found.update(re.findall(r"\blet (" + PLAIN + r")\s*[:=]", line))
        for g in re.findall(r"λ ((?:" + PLAIN + r"\s*)+)\.", line):
            found.update(g.split())
        # clauses: f a b c =
        m = re.match(r"^\s*((?:[^\s=]+\s+)+)= ?", line + " ")
        if m and ":" not in m.group(1):
            found.update(re.findall(PLAIN, m.group(1)))
        # cases of an elim
        for g in re.findall(r"[\[|]\s*([^|\[\]]*?)\s*↦", line):
            found.update(re.findall(PLAIN, g))
    return found


def main():
    if os.path.exists("docs/PORT.md"):
        sys.exit("docs/PORT.md is there: this has run")
    kept = set()  # names that come from the kit
    names = set()
    for path in antt():
        text = open(path).read()
        for module, items in re.findall(r"^\s*(?:pub )?use ([^\s{]+)\.\{([^}]*)\}", text, re.M):
            own = module.startswith("Rattle.") and module.split(".")[1] in OWN
            if not own:
                kept.update(i.split(" as ")[0].strip() for i in items.split(","))
        if path.endswith("Proof.antt"):
            # what answers a goal is named after the goal: those files are written anew. Only the proof's own name is respelled.
            names.update(re.findall(r"^(?:pub )?(" + PLAIN + r"-spec)\b", text, re.M))
            continue
        names.update(declared(path, text))
    names = {n for n in names if wants(n) and n not in kept and not n.startswith("Need-")}
    names.update(APART)
    table = {n: new(n) for n in names}
    if "--list" in sys.argv:
        print("from the kit:", sorted(n for n in kept if wants(n)), file=sys.stderr)
    back = {}
    everything = set()
    for path in antt():
        if not path.endswith("Proof.antt"):
            everything.update(re.findall(PLAIN, open(path).read()))
    for n, m in table.items():
        back.setdefault(m, set()).add(n)
        if m in everything:
            back[m].add(m)
    for m, olds in sorted(back.items()):
        if len(olds) > 1:
            print("fall together:", m, sorted(olds), file=sys.stderr)
    if "--list" in sys.argv:
        for n in sorted(table):
            print(n, table[n])
        return
    one = re.compile(PLAIN)

    def turn(text):
        return one.sub(lambda m: table.get(m.group(0), m.group(0)), text)

    for path in antt():
        text = open(path).read()
        if "/desk/" in path:
            text = text.replace("module·", "module_is")  # there a fact, and not a field
        out = "\n".join(turn(line) for line in text.split("\n"))
        out = out.replace(".«module»", ".module")  # behind a dot the word needs no quotes
        if out != text:
            open(path, "w").write(out)
    for path in sorted(glob.glob("crates/*/src/*.rt")):
        text = open(path).read()
        out = turn(text)
        if out != text:
            open(path, "w").write(out)
    table.update({n: new(n) for n in PORTED})
    for path in sorted(glob.glob("crates/*/must-fail/*.edit")):
        text = open(path).read()
        out = turn(text)
        if out != text:
            open(path, "w").write(out)
    # the pages name definitions and theorems between `..`, some with the module in front: whole words there
    for path in ["README.md"] + sorted(glob.glob("docs/**/*.md", recursive=True)):
        text = open(path).read()
        out = re.sub(r"`[^`\n]+`", lambda m: turn(m.group(0)), text)
        if out != text:
            open(path, "w").write(out)


main()
