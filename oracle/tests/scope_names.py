"""scope_names: whether every name in docs/SCOPE.md stands where it says.

    python3 -m oracle.tests.scope_names

Names in backquotes must be defined in a crate, as a function, a type, a definition or a law; `proofs/X` and `specs/X` must
be files of a crate; crate/label must be a must-fail edit; and a stored file of vectors must be in crates/vectors/data.
Words of the Rust, of the kit and of the command line are listed here. Prints what is not found, and ends with 1 if anything is not.
"""
import os
import re
import sys

ROOT = os.path.dirname(os.path.dirname(os.path.dirname(os.path.abspath(__file__))))
CRATES = os.path.join(ROOT, "crates")
OTHERS = {"Box", "requires", "rt", "ci", "cowhirame"}
NAME = re.compile(r"[A-Za-z_][\w·′]*(?:-[\w·′]+)*")
DEFINED = re.compile(
    r"\b(?:fn|struct|enum|const|record|data|mod) +([A-Za-z_][^\s:(;{]*)"
    r"|^ *(?:abbrev |unfoldable )?(?:pub )?([A-Za-z_][^:(;{=\n]*?) *:|^    ([A-Z]\w*)[,({ ]",
    re.M,
)


def files(*endings):
    for folder, folders, names in os.walk(CRATES):
        folders[:] = [f for f in folders if f != "data"]
        for name in names:
            if name.endswith(endings):
                yield os.path.join(folder, name)


def defined():
    found = set()
    for path in files(".rt", ".antt"):
        with open(path, encoding="utf-8") as text:
            for groups in DEFINED.findall(text.read()):
                found.update(name.rstrip(",") for g in groups for name in g.split())
        found.add(os.path.basename(path).rsplit(".", 1)[0])
    found.update(os.listdir(CRATES))
    found.update(os.listdir(os.path.join(CRATES, "vectors", "data")))
    return found


def main():
    with open(os.path.join(ROOT, "docs", "SCOPE.md"), encoding="utf-8") as text:
        scope = text.read()
    names = defined()
    lacking = []
    for quoted in re.findall(r"`([^`]+)`", scope):
        for part in re.split(r"::|\s+", quoted):
            if NAME.fullmatch(part) and part not in names | OTHERS:
                lacking.append("`%s`" % quoted)
    crates = set(os.listdir(CRATES))
    for crate, label in re.findall(r"\b([a-z_]+)/([a-z][a-z0-9_]+)\b", scope):
        edit = os.path.join(CRATES, crate, "must-fail", label + ".edit")
        if crate in crates and not os.path.exists(edit):
            lacking.append("%s/%s" % (crate, label))
    for folder, module in re.findall(r"\b(proofs|specs)/([A-Z]\w*)", scope):
        if not any(os.path.exists(os.path.join(CRATES, c, folder, module + ".antt")) for c in crates):
            lacking.append("%s/%s" % (folder, module))
    for name in sorted(set(lacking)):
        print("not found:", name)
    print("%d names in backquotes, %d not found" % (len(re.findall(r"`[^`]+`", scope)), len(set(lacking))))
    return 1 if lacking else 0


if __name__ == "__main__":
    sys.exit(main())
