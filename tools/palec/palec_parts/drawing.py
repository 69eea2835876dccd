"""A store as a picture, in Graphviz' language: data fields solid, pointer fields dashed, variables as labels."""
import shutil
import subprocess


# A picture that takes Graphviz longer is left out.
MOST_SECONDS = 20


def quoted(text):
    return '"' + text.replace("\\", "\\\\").replace('"', '\\"').replace("\n", "\\n") + '"'


def pointer_fields(source):
    """The names of pointer fields in the text's types."""
    tokens = source.tokens()
    return {tokens[at + 1].text for at in range(len(tokens) - 2) if tokens[at].text == "pointer" and tokens[at + 2].text == ":"}


def cell_label(cell):
    """A cell's number and type, its bool fields, and which of its fields are null."""
    truths = [f"{name}={value}" for name, value in cell.values if value in ("true", "false")]
    empty = [name for name, value in cell.values if value == "null"]
    return " ".join([f"{cell.number}: {cell.type}", *truths]) + (f"\n{', '.join(empty)}: null" if empty else "")


def targets_of(value):
    """The numbers of the cells that a value names: those of a cell, or of a set."""
    return [int(it) for it in value.strip("{}").split() if it.isdigit()]


def as_dot(store, dashed, title="", changed=frozenset()):
    """The store's text for Graphviz; what is in `changed` (variables by name, cells by number, fields by both) is red."""
    red = lambda key: ", color=red, fontcolor=red" if key in changed else ""
    lines = ["digraph store {", '  rankdir=LR; node [shape=box, fontname="Helvetica"]; edge [fontname="Helvetica"];']
    if title:
        lines.append(f"  label={quoted(title)}; labelloc=t;")
    values = [value for _, value in store.variables] + [value for cell in store.cells for _, value in cell.values]
    freed = {target for value in values for target in targets_of(value)} - {it.number for it in store.cells}
    lines += [f"  c{it} [label={quoted(f'{it} (freed)')}, style=dotted];" for it in sorted(freed)]
    for cell in store.cells:
        is_changed = cell.number in changed or any((cell.number, name) in changed for name, value in cell.values if not value.isdigit())
        lines.append(f"  c{cell.number} [label={quoted(cell_label(cell))}{', color=red, fontcolor=red' if is_changed else ''}];")
        for name, value in cell.values:
            style = "dashed" if name in dashed else "solid"
            lines += [f"  c{cell.number} -> c{it} [label={quoted(name)}, style={style}{red((cell.number, name))}];" for it in targets_of(value)]
    for place, (name, value) in enumerate(store.variables):
        lines.append(f"  v{place} [label={quoted(name if value.isdigit() else f'{name} = {value}')}, shape=plaintext{red(name)}];")
        lines += [f"  v{place} -> c{it} [arrowhead=vee{red(name) or ', color=gray40'}];" for it in targets_of(value)]
    return "\n".join([*lines, "}"]) + "\n"


def as_svg(dot):
    """The picture as an element of a page, or nothing where Graphviz isn't there."""
    program = shutil.which("dot")
    if not program:
        return ""
    try:
        made = subprocess.run([program, "-Tsvg"], input=dot.encode(), stdout=subprocess.PIPE, stderr=subprocess.DEVNULL, timeout=MOST_SECONDS)
    except subprocess.TimeoutExpired:
        return ""
    text = made.stdout.decode("utf-8", "replace")
    return text[text.find("<svg"):] if made.returncode == 0 and "<svg" in text else ""


def draw(dot, path):
    """Writes the picture: the text for `.dot`, else what Graphviz makes. Returns why it couldn't, or nothing."""
    if str(path).endswith(".dot"):
        with open(path, "w", encoding="utf-8") as file:
            file.write(dot)
        return ""
    program = shutil.which("dot")
    if not program:
        return "Graphviz isn't installed (no `dot` on the path); a name that ends in `.dot` needs none"
    made = subprocess.run([program, f"-T{str(path).rsplit('.', 1)[-1]}", "-o", str(path)], input=dot.encode(), stderr=subprocess.PIPE)
    return made.stderr.decode("utf-8", "replace").strip() if made.returncode else ""
