#!/usr/bin/env python3
"""Checks a section of a certificate, independently of the crates: a second reading of what a section is.

  tools/check_certificate.py FORMULA FILE [GUIDE]    a section of a formula such as `And(Single 0, Not(Single 0))`, under the
                                                     guide with one space or one such as `1,2;1,1;2,2`
  tools/check_certificate.py --self                  looks at sections that are written below

It answers `accepted`, or the first fault: `refused LINE KIND`."""
import re, sys

MOST = 4294967296

# ---- formulas

def parse(text):
    """A formula as a tuple of its form and its parts."""
    words = re.findall(r"[A-Za-z]\w*|\d+|[(),]", text)
    at = 0
    def take(word=None):
        nonlocal at
        got = words[at]
        assert word is None or got == word, (word, got)
        at += 1
        return got
    def formula():
        form = take()
        tracks = {"Single": 1, "Root": 1, "Sub": 2, "Succ0": 2, "Succ1": 2}
        wrapped = words[at] == "("
        if wrapped: take("(")
        if form in tracks:
            made = [form]
            for k in range(tracks[form]):
                if k and words[at] == ",": take(",")
                made.append(int(take()))
        elif form == "Not": made = [form, formula()]
        elif form == "And":
            left = formula(); take(","); made = [form, left, formula()]
        elif form == "Ex2":
            track = int(take())
            if words[at] == ",": take(",")
            made = [form, track, formula()]
        else: raise ValueError(form)
        if wrapped: take(")")
        return tuple(made)
    made = formula()
    assert at == len(words), words[at:]
    return made

def numbered(f):
    """The distinct parts, each after its own."""
    found = []
    def walk(g):
        if g in found: return
        for part in g[1:]:
            if isinstance(part, tuple): walk(part)
        found.append(g)
    walk(f)
    return found

# ---- automata: a function of space, two states and the set of tracks of a label; which tracks it asks; which states accept

class Automaton:
    def __init__(self, states, initial, step, tracks, accepts):
        self.states, self.initial, self.step, self.tracks, self.accepts = states, initial, step, tracks, accepts

def atom(f, spaces):
    form, x, y = f[0], f[1], f[-1]
    def sub(s, p, q, label): return 1 if p or q or (x in label and y not in label) else 0
    def single(s, p, q, label): return min(2, p + q + (x in label))
    def root(s, p, q, label): return int(x in label) if (p, q) == (0, 0) else 2
    def succ(child):
        def step(s, p, q, label):
            in_x, in_y = x in label, y in label
            if not in_x and not in_y and (p, q) in ((0, 0), (2, 0), (0, 2)): return p + q
            if in_y and not in_x and (p, q) == (0, 0): return 1
            if in_x and not in_y and (p, q) == child: return 2
            return 3
        return step
    step, states, accepting = {"Sub": (sub, 2, 0), "Single": (single, 3, 1), "Root": (root, 3, 1),
        "Succ0": (succ((1, 0)), 4, 2), "Succ1": (succ((0, 1)), 4, 2)}[form]
    return Automaton([states] * spaces, [0] * spaces, step, {x, y}, lambda q: q == accepting)

def labels(tracks):
    """All labels of these tracks."""
    made = [frozenset()]
    for t in sorted(tracks): made += [l | {t} for l in made]
    return made

# ---- lines

FORMS = {"section": "wn", "and": "n", "ex": "n", "space": "nnn", "left": "n*", "right": "n*", "node": "nntt", "root": "nnnt",
    "accept": "*", "pair": "nnnn", "init": "nn", "settle": "nnnnb", "set": "nn*", "end": ""}

def number(word):
    if re.fullmatch(r"0|[1-9][0-9]*", word) and int(word) < MOST: return int(word)

def read(line):
    """A line's word and fields, or None."""
    word, *fields = line.split(" ")
    if word not in FORMS: return None
    kinds = FORMS[word]
    if kinds.endswith("*"): kinds = kinds[:-1] + "n" * (len(fields) - len(kinds) + 1)
    if len(kinds) != len(fields): return None
    made = [word]
    for kind, field in zip(kinds, fields):
        if kind == "w": value = field if field in ("easier", "whole") else None
        elif kind == "b": value = {"0": 0, "1": 1}.get(field)
        elif kind == "t" and field.startswith("="):
            value = number(field[1:])
            value = None if value is None else ("state", value)
        else:
            value = number(field)
            if kind == "t" and value is not None: value = ("node", value)
        if value is None: return None
        made.append(value)
    return tuple(made)

class Fault(Exception): pass

class Checker:
    def __init__(self, formula, guide, text):
        self.parts, self.guide = numbered(formula), guide
        lines = text.split("\n")
        self.cut = lines.pop() != ""            # a last line without an LF
        if self.cut: lines.append(None)
        self.lines, self.at, self.nodes = lines, 0, {}

    def fault(self, kind, back=0): raise Fault(self.at - back, kind)

    def peek(self):
        """The word of the next line, if it has a form."""
        if self.at < len(self.lines) and self.lines[self.at] is not None:
            got = read(self.lines[self.at])
            return got and got[0]

    def next(self, *due):
        """The next line, which has one of these forms."""
        self.at += 1
        if self.at > len(self.lines): self.fault("missing")
        line = self.lines[self.at - 1]
        got = None if line is None else read(line)
        if got is None or got[0] not in due: self.fault("syntax")
        return got

    def want(self, holds, kind="table"):
        if not holds: self.fault(kind)

    # a table of an automaton
    def automaton(self):
        spaces = range(len(self.guide))
        states, initial = [], []
        for s in spaces:
            _, space, count, first = self.next("space")
            self.want(space < len(self.guide), "unknown")
            self.want(space == s and count > 0 and first < count)
            states.append(count); initial.append(first)
        sides = []
        for side, word in enumerate(("left", "right")):
            classes = []
            for s in spaces:
                _, space, *cs = self.next(word)
                self.want(space < len(self.guide), "unknown")
                self.want(space == s and len(cs) == states[self.guide[s][side]])
                most = -1
                for c in cs:
                    self.want(c <= most + 1)
                    most = max(most, c)
                classes.append(cs)
            sides.append(classes)
        left, right = sides
        roots, tracks = {}, set()
        for s in spaces:
            for c in range(max(left[s]) + 1):
                for d in range(max(right[s]) + 1):
                    while self.peek() == "node": self.node()
                    _, space, got_c, got_d, target = self.next("root", "node")
                    self.want(space < len(self.guide), "unknown")
                    self.want(got_c <= max(left[space]) and got_d <= max(right[space]), "unknown")
                    self.want(self.known(target), "unknown")
                    found_states, found_tracks = self.reached(target)
                    self.want((space, got_c, got_d) == (s, c, d) and all(q < states[s] for q in found_states))
                    roots[s, c, d] = target
                    tracks |= found_tracks
        _, *accepting = self.next("accept")
        self.want(all(q < states[0] for q in accepting), "unknown")
        self.want(all(a < b for a, b in zip(accepting, accepting[1:])))
        def step(s, p, q, label):
            target = roots[s, left[s][p], right[s][q]]
            while target[0] == "node":
                track, low, high = self.nodes[target[1]]
                target = high if track in label else low
            return target[1]
        return Automaton(states, initial, step, tracks, lambda q: q in accepting)

    def known(self, target): return target[0] == "state" or target[1] in self.nodes

    def reached(self, target):
        states, tracks, waiting, met = set(), set(), [target], set()
        while waiting:
            t = waiting.pop()
            if t in met: continue
            met.add(t)
            if t[0] == "state": states.add(t[1]); continue
            track, low, high = self.nodes[t[1]]
            tracks.add(track); waiting += [low, high]
        return states, tracks

    def node(self):
        _, n, track, low, high = self.next("node")
        self.want(self.known(low) and self.known(high), "unknown")
        self.want(n == len(self.nodes) + 1 and low != high)
        for side in (low, high): self.want(side[0] == "state" or self.nodes[side[1]][0] > track)
        self.nodes[n] = (track, low, high)

    # the step of a conjunction
    def conjunction(self, A, B):
        C = self.automaton()
        pairs, last = {}, ()
        while self.peek() == "pair":
            _, s, p, q, x = self.next("pair")
            self.want(s < len(self.guide) and p < A.states[s] and q < B.states[s] and x < C.states[s], "unknown")
            self.want((s, p, q) > last); last = (s, p, q)
            pairs[s, p, q] = x
        return C, set(x for (s, p, q), x in pairs.items() if s == 0), lambda: self.closed_pairs(A, B, C, pairs)

    def closed_pairs(self, A, B, C, pairs):
        asked = labels(A.tracks | B.tracks | C.tracks)
        for s, (l, r) in enumerate(self.guide):
            if pairs.get((s, A.initial[s], B.initial[s])) != C.initial[s]: return False
            for (k, p, q), x in pairs.items():
                if k != l: continue
                for (m, p2, q2), y in pairs.items():
                    if m != r: continue
                    for label in asked:
                        if pairs.get((s, A.step(s, p, p2, label), B.step(s, q, q2, label))) != C.step(s, x, y, label): return False
        return all((A.accepts(p) and B.accepts(q)) == C.accepts(x) for (s, p, q), x in pairs.items() if s == 0)

    # the step of a quantified formula
    def quantified(self, track, A):
        C = self.automaton()
        spaces = range(len(self.guide))
        order = []
        for s in spaces:
            _, space, q = self.next("init")
            self.want(space < len(self.guide) and q < A.states[space], "unknown")
            self.want(space == s and q == A.initial[s]); order.append((s, q))
        while self.peek() == "settle":
            _, s, q, p, r, bit = self.next("settle")
            self.want(s < len(self.guide) and q < A.states[s], "unknown")
            l_space, r_space = self.guide[s]
            self.want((l_space, p) in order and (r_space, r) in order, "unknown")
            self.want((s, q) not in order and A.step(s, p, r, frozenset([track] * bit)) == q); order.append((s, q))
        settled = [frozenset(q for s, q in order if s == k) for k in spaces]
        whole = all(A.step(s, p, q, label) in settled[s] for s, (l, r) in enumerate(self.guide)
            for p in settled[l] for q in settled[r] for label in labels({track}))
        if not whole:
            self.next("set", *self.after()); self.fault("table")
        sets, last = {}, -1
        while self.peek() == "set":
            _, s, x, *members = self.next("set")
            self.want(s < len(self.guide) and x < C.states[s] and all(q < A.states[s] for q in members), "unknown")
            self.want(s >= last and all(a < b for a, b in zip(members, members[1:]))); last = s
            self.want((s, frozenset(members)) not in sets); sets[s, frozenset(members)] = x
        return C, set(x for (s, m), x in sets.items() if s == 0), lambda: self.closed_sets(track, A, C, settled, sets)

    def closed_sets(self, track, A, C, settled, sets):
        asked = labels((A.tracks | C.tracks) - {track})
        for s, (l, r) in enumerate(self.guide):
            if sets.get((s, settled[s])) != C.initial[s]: return False
            for (k, m), x in sets.items():
                if k != l: continue
                for (j, n), y in sets.items():
                    if j != r: continue
                    for label in asked:
                        to = frozenset(A.step(s, p, q, wide) for p in m for q in n for wide in (label, label | {track}))
                        for wide in (label, label | {track}):
                            if sets.get((s, to)) != C.step(s, x, y, wide): return False
        return all(any(A.accepts(q) for q in m) == C.accepts(x) for (s, m), x in sets.items() if s == 0)

    def after(self): return [self.due] if self.due else ["end"]

    def section(self):
        _, way, count = self.next("section")
        self.want(count == len(self.parts), "formula")
        steps = [k for k, f in enumerate(self.parts) if f[0] in ("And", "Ex2")]
        word = {"And": "and", "Ex2": "ex"}
        automata, reached, check = {}, {}, None
        for k, f in enumerate(self.parts):
            if f[0] == "Not":
                part = self.parts.index(f[1]); A = automata[part]
                automata[k] = Automaton(A.states, A.initial, A.step, A.tracks, lambda q, A=A: not A.accepts(q))
                reached[k] = reached[part]
            elif f[0] in word:
                _, got = self.next(word[f[0]])
                self.want(got < len(self.parts), "unknown")
                self.want(check is None or check())
                self.want(got == k)
                later = [j for j in steps if j > k]
                self.due = word[self.parts[later[0]][0]] if later else None
                if f[0] == "And": made = self.conjunction(*(automata[self.parts.index(g)] for g in f[1:]))
                else: made = self.quantified(f[1], automata[self.parts.index(f[2])])
                automata[k], reached[k], check = made
            else:
                automata[k] = atom(f, len(self.guide)); reached[k] = set(range(automata[k].states[0]))
        self.next("end")
        self.want(check is None or check())
        last = len(self.parts) - 1
        self.want(not any(automata[last].accepts(q) for q in reached[last]), "not-empty")
        if self.at < len(self.lines): self.at += 1; self.fault("syntax")

def check(formula, text, guide=((0, 0),)):
    try: Checker(parse(formula), guide, text).section()
    except Fault as fault: return "refused %d %s" % fault.args
    return "accepted"

# ---- sections that are looked at

CONTRADICTION = "And(Single 0, Not(Single 0))"
SECTION = """section whole 3
and 2
space 0 1 0
left 0 0
right 0 0
root 0 0 0 =0
accept
pair 0 0 0 0
pair 0 1 1 0
pair 0 2 2 0
end
"""
# "not: for some set of track 1, the set of track 0 isn't within itself", which always holds. With both states in the starting
# set every set would accept.
ALWAYS = "Not(Ex2(1, Not(Sub(0, 0))))"
TOO_LARGE = """section whole 4
ex 2
space 0 1 0
left 0 0
right 0 0
root 0 0 0 =0
accept 0
init 0 0
set 0 0 0 1
end
"""
# its part, which never holds, and the least starting set
NEVER = "Ex2(1, Not(Sub(0, 0)))"
LEAST = """section whole 3
ex 2
space 0 1 0
left 0 0
right 0 0
root 0 0 0 =0
accept
init 0 0
set 0 0 0
end
"""
# "some set is one position and has none": from each state the set may grow
GROWS = "Ex2(0, And(Single 0, Not(Single 0)))"
GROWN = SECTION.replace("whole 3", "whole 4").replace("end\n", "") + """ex 3
space 0 1 0
left 0 0
right 0 0
root 0 0 0 =0
accept
init 0 0
set 0 0 0
end
"""

# "some set is one position", of which the states settle one after the other, so that this isn't empty
SOME = "Ex2(0, Single 0)"
SETTLES = """section whole 2
ex 1
space 0 1 0
left 0 0
right 0 0
root 0 0 0 =0
accept 0
init 0 0
settle 0 1 0 0 1
settle 0 2 1 0 1
set 0 0 0 1 2
end
"""

def swap(text, old, new): assert old in text, old; return text.replace(old, new, 1)

def looked_at():
    yield CONTRADICTION, SECTION, "accepted"
    yield CONTRADICTION, swap(SECTION, "accept\n", "accept 0\n"), "refused 11 table"
    yield CONTRADICTION, swap(SECTION, "pair 0 2 2 0\n", ""), "refused 10 table"
    yield CONTRADICTION, swap(SECTION, "pair 0 0 0 0\n", ""), "refused 10 table"
    yield CONTRADICTION, swap(SECTION, "whole 3", "whole 4"), "refused 1 formula"
    yield CONTRADICTION, swap(SECTION, "root 0 0 0 =0", "root 0 0 0 =1"), "refused 6 table"
    yield CONTRADICTION, swap(SECTION, "root 0 0 0 =0", "root 0 0 0 1"), "refused 6 unknown"
    yield CONTRADICTION, swap(SECTION, "left 0 0", "left 0 1"), "refused 4 table"
    yield CONTRADICTION, swap(SECTION, "pair 0 1 1 0", "pair 0 1 1 1"), "refused 9 unknown"
    yield CONTRADICTION, swap(SECTION, "end\n", ""), "refused 11 missing"
    yield CONTRADICTION, swap(SECTION, "end\n", "end"), "refused 11 syntax"
    yield CONTRADICTION, swap(SECTION, "and 2", "and 02"), "refused 2 syntax"
    yield CONTRADICTION, SECTION + "end\n", "refused 12 syntax"
    yield CONTRADICTION, swap(SECTION, "root 0 0 0 =0", "node 1 0 =0 =0\nroot 0 0 0 1"), "refused 6 table"
    yield "And(Single 0, Single 0)", swap(swap(SECTION, "whole 3", "whole 2"), "and 2", "and 1"), "refused 11 table"
    yield ALWAYS, TOO_LARGE, "refused 10 table"
    yield ALWAYS, swap(TOO_LARGE, "init 0 0\n", "init 0 0\nsettle 0 1 0 0 1\n"), "refused 9 table"
    yield ALWAYS, swap(TOO_LARGE, "init 0 0\n", "init 0 0\nsettle 0 1 1 0 0\n"), "refused 9 unknown"
    yield ALWAYS, swap(TOO_LARGE, "set 0 0 0 1", "set 0 0 0"), "refused 10 table"
    yield NEVER, LEAST, "accepted"
    yield NEVER, swap(LEAST, "init 0 0\n", ""), "refused 8 syntax"
    yield NEVER, swap(LEAST, "init 0 0\n", "init 0 1\n"), "refused 8 table"
    yield NEVER, swap(LEAST, "set 0 0 0\n", ""), "refused 9 table"
    yield NEVER, swap(LEAST, "set 0 0 0\n", "set 0 0 0\nset 0 0 0\n"), "refused 10 table"
    yield GROWS, GROWN, "accepted"
    yield SOME, SETTLES, "refused 12 not-empty"
    yield SOME, swap(SETTLES, "settle 0 2 1 0 1\n", ""), "refused 10 table"

def main():
    if sys.argv[1:] == ["--self"]:
        wrong = [(f, t, want, got) for f, t, want in looked_at() for got in [check(f, t)] if got != want]
        for f, t, want, got in wrong: print(f"{f}\n{t}{got}, and {want} was expected\n")
        print(f"{len(list(looked_at())) - len(wrong)} as expected, {len(wrong)} not")
        sys.exit(bool(wrong))
    formula, path, *guide = sys.argv[1:]
    spaces = [tuple(map(int, pair.split(","))) for pair in guide[0].split(";")] if guide else [(0, 0)]
    print(check(formula, open(path, newline="").read(), spaces))

if __name__ == "__main__": main()
