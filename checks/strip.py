"""A crate without its code: the types that it declares, and of its definitions and laws those that another crate reaches.

What is left of a crate is what theorems above it rest on. A contract that is weakened there is refused by no code, which is gone, and by no
law of a file that the theorems do not reach."""
import os
import re

NAMED = re.compile(r"^\s*(?:pub\s+)?use\s+Rattle\.([a-z_]+)\.(specs|proofs)\.([A-Za-z0-9_.]+)", re.M)
# a fact that a struct carries: what makes one is gone, and its words may stand in a file that no theorem reaches
GHOST = re.compile(r"\s+(?:pub\s+)?ghost\s+\w+:\s*\{.*\},$")
ITEM = re.compile(r"(?:pub(?:\([a-z]+\))?\s+)?(?:unsafe\s+)?(?:extern\s+\"C\"\s+)?(fn|impl|ghost use|use)\b")


def read(path):
    with open(path, encoding="utf-8") as f:
        return f.read()


def named(text):
    """The modules that a file's use lines name: (crate, 'specs' or 'proofs', path of the module)."""
    for crate, part, path in NAMED.findall(text):
        yield crate, part, path.strip(".").replace(".", "/")


def reached(root, top, crates):
    """The files of specs/ and proofs/ of the given crates that the crate `top` reaches by use lines, as (crate, path)."""
    found, left = set(), []
    for part in ("specs", "proofs"):
        for folder, _, files in os.walk(os.path.join(root, top, part)):
            left += [os.path.join(folder, f) for f in files if f.endswith(".antt")]
    while left:
        for crate, part, module in named(read(left.pop())):
            if crate not in crates or module.startswith("declared"):
                continue
            # the last words of a path may be names that the module declares
            words = module.split("/")
            for n in range(len(words), 0, -1):
                rel = os.path.join(part, *words[:n]) + ".antt"
                path = os.path.join(root, crate, rel)
                if os.path.isfile(path):
                    if (crate, rel) not in found:
                        found.add((crate, rel))
                        left.append(path)
                    break
    return found


def types_used(item):
    """A use item with those of its names alone that are types or constants, or nothing where none is: what has a small letter is a function."""
    head, path, names, alone = re.fullmatch(r"((?:pub(?:\([a-z]+\))?\s+)?use)\s+([\w:]+?)::(?:\{([^}]*)\}|(\w+(?:\s+as\s+\w+)?));", item, re.S).groups()
    kept = [n for n in re.split(r"\s*,\s*", (alone or names).strip()) if n[:1].isupper()]
    return f"{head} {path}::{{{', '.join(kept)}}};" if kept else ""


def plain(attribute):
    """A derive without what only functions ask for: comparing and printing."""
    return re.sub(r"\((.*)\)", lambda m: "(" + ", ".join(d for d in m.group(1).split(", ") if d in ("Clone", "Copy", "Drop")) + ")", attribute) if attribute.startswith("#[derive(") else attribute


def types_alone(text):
    """A source file without its functions, and without what only they use."""
    out, attributes, lines, i = [], [], text.split("\n"), 0
    while i < len(lines):
        line = lines[i]
        i += 1
        if line.startswith("#["):
            attributes.append(plain(line))
            continue
        if GHOST.match(line):
            continue
        item = ITEM.match(line)
        if not item:
            out += attributes + [line]
        elif item.group(1) in ("fn", "impl"):
            # it ends at the first brace in the first column, or on its own line
            if not (line.endswith("}") and line.count("{") == line.count("}")):
                while lines[i] != "}":
                    i += 1
                i += 1
        else:
            while not line.endswith(";"):
                line += "\n" + lines[i]
                i += 1
            if item.group(1) == "use":
                out.append(types_used(line))
        attributes = []
    return "\n".join(out)


def strip(root, crate, keep, to):
    """Lays crates/CRATE down at `to`: src/ by types_alone, and of specs/ and proofs/ the files in `keep` with those that declare them."""
    for folder, _, files in os.walk(os.path.join(root, crate, "src")):
        for f in files:
            path = os.path.join(folder, f)
            lay(os.path.join(to, os.path.relpath(path, os.path.join(root, crate))), types_alone(read(path)))
    rels = {rel for c, rel in keep if c == crate}
    for rel in list(rels):
        words = rel.split("/")
        rels |= {os.path.join(*words[:n]) + ".antt" for n in range(2, len(words))}
        rels.add(os.path.join(words[0], "Lib.antt"))
    rels = {rel for rel in rels if os.path.isfile(os.path.join(root, crate, rel))}
    for rel in rels:
        below = rel[: -len(".antt")] if os.path.basename(rel) != "Lib.antt" else os.path.dirname(rel)
        text = read(os.path.join(root, crate, rel))
        kept = [line for line in text.split("\n") if not (m := re.match(r"^(?:pub )?mod (\S+)$", line)) or os.path.join(below, m.group(1)) + ".antt" in rels]
        lay(os.path.join(to, rel), "\n".join(kept))


def lay(path, text):
    os.makedirs(os.path.dirname(path), exist_ok=True)
    with open(path, "w", encoding="utf-8") as f:
        f.write(text)
