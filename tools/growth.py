#!/usr/bin/env python3
"""How time and memory grow: families of programs and of WS2S texts, each growing in one way, given to a built `pale`.

    tools/growth.py PALE [OTHER] [--seconds S] [--only NAME ..]

For each family the sizes grow until an answer takes more than S processor seconds (20). A row has, for each size, the seconds
and megabytes of PALE, with those of OTHER, another build, behind a slash. Every program here is valid, and a text has the
answer that stands beside its family; any other answer is printed as WRONG, and the script then ends with status 1.
"""
import argparse
import os
import resource
import subprocess
import sys
import tempfile
from itertools import combinations

LIST = "type Node = { data next: Node; }\n"
HANDED_ON = "  y = x;\n  x = null;\n"
# The position p is at or above the position q.
ABOVE = "pred le(var1 p, var1 q) = (all2 X: (((q in X) & (all1 u: (((u.0 in X) | (u.1 in X)) => (u in X)))) => (p in X)));\n"


# ---- programs: a cell is put in front of a list, or a list is handed on, with more of one thing around it


def pushed(types=LIST, more_parameters="", more_results="", locals_="", after=""):
    head = f"proc p(data x: Node{more_parameters}) returns (data y: Node{more_results}) {{\n"
    return f"{types}{head}{locals_}  y = new Node;\n  y.next = x;\n  x = null;\n{after}}}\n"


def pointer_locals(n):
    return pushed(locals_="".join(f"  pointer p{i}: Node;\n" for i in range(n)))


def pointer_parameters(n):
    return pushed(more_parameters="".join(f", pointer p{i}: Node" for i in range(n)))


def moved(n, type_of):
    """n data variables that are handed on, each of the type that stands for its number."""
    return {
        "more_parameters": "".join(f", data a{i}: {type_of(i)}" for i in range(n)),
        "more_results": "".join(f", data b{i}: {type_of(i)}" for i in range(n)),
        "after": "".join(f"  b{i} = a{i};\n  a{i} = null;\n" for i in range(n)),
    }


def data_parameters(n):
    return pushed(**moved(n, lambda i: "Node"))


def types_with_a_variable(n):
    types = LIST + "".join(f"type T{i} = {{ data f: T{i}; }}\n" for i in range(n))
    return pushed(types=types, **moved(n, "T{}".format))


def types_in_a_ring(n):
    types = "".join(f"type T{i} = {{ data f: T{(i + 1) % n}; }}\n" for i in range(n))
    return f"{types}proc p(data x: T0) returns (data y: T0) {{\n{HANDED_ON}}}\n"


def data_fields(n):
    fields = "".join(f"data f{i}: Node; " for i in range(n))
    return pushed(types=f"type Node = {{ data next: Node; {fields}}}\n")


def pointer_fields(n):
    fields = "".join(f"pointer f{i}: Node [^next]; " for i in range(n))
    set_all = "".join(f"    y.next.f{i} = y;\n" for i in range(n))
    after = f"  if (y.next != null) {{\n{set_all}  }}\n"
    return pushed(types=f"type Node = {{ data next: Node; {fields}}}\n", after=after)


def variants(n):
    types = "type Node = { } " + "".join(f"| v{i} {{ data n{i}: Node; }} " for i in range(n)) + "\n"
    return f"{types}proc p(data x: Node) returns (data y: Node) {{\n{HANDED_ON}}}\n"


def in_a_row(local, statement):
    """A list that is handed on, and then a statement so many times."""
    return lambda n: f"{LIST}proc p(data x: Node) returns (data y: Node) {{\n  {local}\n{HANDED_ON}{statement * n}  t = null;\n}}\n"


pushes = in_a_row("data t: Node;", "  t = new Node;\n  t.next = y;\n  y = t;\n  t = null;\n")
guarded_steps = in_a_row("pointer t: Node;", "  if (t != null) { t = t.next; }\n")
guarded_stores = in_a_row(
    "data t: Node;", "  if (y == null) { y = new Node; } else { t = y; y = new Node; y.next = t; t = null; }\n"
)

PROGRAMS = {
    "pointer_locals": (pointer_locals, [2, 4, 8, 12, 16, 24, 32]),
    "pointer_parameters": (pointer_parameters, [2, 4, 8, 12, 16, 24]),
    "data_parameters": (data_parameters, [1, 2, 4, 6, 8, 12, 16]),
    "types_with_a_variable": (types_with_a_variable, [1, 2, 4, 6, 8, 12]),
    "types_in_a_ring": (types_in_a_ring, [2, 4, 6, 8, 12, 16]),
    "data_fields": (data_fields, [2, 4, 8, 12, 16, 24, 31]),
    "pointer_fields": (pointer_fields, [1, 2, 4, 6, 8]),
    "variants": (variants, [2, 4, 6, 8, 12, 16]),
    "pushes": (pushes, [1, 2, 4, 8, 16, 24, 40]),
    "guarded_steps": (guarded_steps, [2, 4, 8, 16, 32]),
    "guarded_stores": (guarded_stores, [1, 2, 3, 4, 6, 8]),
}


# ---- WS2S texts


def text(*lines):
    return "ws2s;\n" + "".join(f"{line}\n" for line in lines)


def every(parts):
    return " & ".join(parts) + ";"


def names(letter, n):
    return [f"{letter}{i}" for i in range(n)]


def order(n):
    x = names("x", n)
    chain = " & ".join(f"le({a},{b})" for a, b in zip(x, x[1:]))
    return text(ABOVE + f"var1 {', '.join(x)};", f"(({chain}) => le({x[0]},{x[-1]}));")


def incomparable(n):
    """n positions, none of which is at or above another."""
    x = names("x", n)
    return text(ABOVE + f"var1 {', '.join(x)};", every(f"~le({a},{b}) & ~le({b},{a})" for a, b in combinations(x, 2)))


def freevars(n):
    """n sets, each with a position that the sets before it don't have."""
    x = names("X", n)
    fresh = (f"(ex1 p: ((p in {x[i]})" + "".join(f" & (p notin {b})" for b in x[:i]) + "))" for i in range(n))
    return text(f"var2 {', '.join(x)};", every(fresh))


CLOSED = "(all1 p: (((p.0 in X) | (p.1 in X)) => (p in X)))"


def tree(n):
    """A set closed upwards in which each position has both children or none, with a leftmost path of n steps."""
    both = "(all1 p: ((p.0 in X) <=> (p.1 in X)))"
    return text("var2 X;", every([CLOSED, both, f"(ex1 r: ((r = root) & (r{'.0' * n} in X)))"]))


def heap(n):
    """A tree whose positions have labels 0 to n - 1 that don't fall towards the leaves, and each label stands somewhere."""
    labels = names("H", n)
    parts = [CLOSED, "(all1 p: ((p in X) => (" + " | ".join(f"(p in {h})" for h in labels) + ")))"]
    parts += [f"(all1 p: (~((p in {a}) & (p in {b}))))" for a, b in combinations(labels, 2)]
    parts += [f"(all1 p: ((p in {b}) => ((p.0 notin {a}) & (p.1 notin {a}))))" for a, b in combinations(labels, 2)]
    parts += [f"({h} sub X) & (~(empty({h})))" for h in labels]
    return text(f"var2 X, {', '.join(labels)};", every(parts))


def leaves(n):
    """A set closed upwards with n leaves at least."""
    x = names("x", n)
    each = [f"({a} in X) & ({a}.0 notin X) & ({a}.1 notin X)" for a in x]
    apart = [f"({a} ~= {b})" for a, b in combinations(x, 2)]
    return text("var2 X;", f"var1 {', '.join(x)};", every([CLOSED, *each, *apart]))


def parts(n):
    """n sets without a common position, none empty, each under the one before it."""
    x = names("X", n)
    conjuncts = [f"(all1 p: (~((p in {a}) & (p in {b}))))" for a, b in combinations(x, 2)]
    conjuncts += [f"(~(empty({a})))" for a in x]
    conjuncts += [f"(all1 p: ((p.0 in {b}) => (p in {a})))" for a, b in zip(x, x[1:])]
    return text(f"var2 {', '.join(x)};", every(conjuncts))


def nthback(n):
    """Some position has one of a set so many steps below it: the sets of guesses are 2^n."""
    below = f"(ex1 p: ((p in X) & (p{'.0' * n} in L)))"
    return text("var2 X, L;", every([below, "(all1 q: ((q in L) => ((q.0 notin L) & (q.1 notin L))))"]))


TEXTS = {
    "order": (order, range(3, 13, 3), "valid"),
    "incomparable": (incomparable, [2, 3, 4, 5, 6, 8], "satisfiable"),
    "freevars": (freevars, [2, 4, 6, 8, 10], "satisfiable"),
    "tree": (tree, [2, 4, 8, 16], "satisfiable"),
    "heap": (heap, [2, 4, 6, 8], "satisfiable"),
    "leaves": (leaves, [2, 3, 4, 5, 6, 7], "satisfiable"),
    "parts": (parts, [3, 5, 7, 9, 11], "satisfiable"),
    "nthback": (nthback, [2, 4, 8, 12], "satisfiable"),
}


def answered(program, mode, given, seconds):
    """What the program writes, its processor seconds and megabytes; nothing is written where the seconds ran out."""
    most = int(seconds) + 1
    with tempfile.TemporaryFile() as source, tempfile.TemporaryFile() as made:
        source.write(given.encode())
        source.seek(0)
        bound = lambda: resource.setrlimit(resource.RLIMIT_CPU, (most, most))
        process = subprocess.Popen([program, mode, "--limit", "16000000"], stdin=source, stdout=made, preexec_fn=bound)
        _, status, used = os.wait4(process.pid, 0)
        process.returncode = status
        made.seek(0)
        return made.read().decode().splitlines(), used.ru_utime + used.ru_stime, used.ru_maxrss // 1024


def is_right(lines, answer):
    if answer is None:
        return bool(lines) and lines[-1].endswith(" invalid 0 limit 0")
    return bool(lines) and lines[0] == answer


def row(name, make, sizes, mode, answer, programs, seconds):
    """Prints the row of a family, and says whether each answer that came was right."""
    cells, well = [], True
    for n in sizes:
        given, told, slow = make(n), [], True
        for program in programs:
            lines, spent, held = answered(program, mode, given, seconds)
            is_late = spent > seconds
            right = is_late or is_right(lines, answer)
            told.append(f"over {seconds:g} s" if is_late else f"{spent:.2f} s {held} MB{'' if right else ' WRONG'}")
            well, slow = well and right, slow and is_late
        cells.append(f"{n}: {' / '.join(told)}")
        if slow:
            break
    print(f"{name:22} {'; '.join(cells)}", flush=True)
    return well


def main():
    words = argparse.ArgumentParser(description=__doc__, formatter_class=argparse.RawDescriptionHelpFormatter)
    words.add_argument("program")
    words.add_argument("other", nargs="?")
    words.add_argument("--seconds", type=float, default=20)
    words.add_argument("--only", nargs="*")
    words = words.parse_args()
    programs = [words.program] + ([words.other] if words.other else [])
    families = [(name, make, sizes, "check", None) for name, (make, sizes) in PROGRAMS.items()]
    families += [(name, make, sizes, "ws2s", answer) for name, (make, sizes, answer) in TEXTS.items()]
    wanted = [it for it in families if not words.only or it[0] in words.only]
    well = [row(*it, programs, words.seconds) for it in wanted]
    return 0 if all(well) else 1


if __name__ == "__main__":
    sys.exit(main())
