#!/usr/bin/env python3
"""Brings the names of the repository's own definitions and lemmas to snake case, once, after the respelling of the language.

Run it at the top of the repository. It reads the names that specs/ and the lemma files of proofs/ declare, and renames each
of them wherever it stands: in specs/, in proofs/, in the clauses of src/ and in must-fail/. Types and facts keep their upper
camel case. `--dry` prints the table of names and what would fall together, and writes nothing.
"""
import re
import sys
from pathlib import Path

ROOT = Path.cwd()
PART = r"[\w◌·'₂⁻→≢ᴰ⊎-]"
TOKEN = re.compile(PART + "+")
DECLARED = re.compile(r"\s*(?:abbrev |unfoldable |pub )*(?:record |data )?(" + PART + r"+)\s+:\s")
CAMEL = re.compile(r"(?<=[a-z0-9])(?=[A-Z])")

# Names that a generated module demands as they are written in it.
KEPT = {"decreases-loop", "decreases-loop2", "invariant-loop", "invariant-loop2"}
# Names that end in a size are read as in src/.
SPECIAL = {
    "is16K": "is_16k",
    "is16K-": "is_16k-",
    "epromStart8K": "eprom_start_8k",
    "epromStart16K": "eprom_start_16k",
    "Bits·bit": "bit",
    # A lemma that would have its definition's name.
    "line-length": "line_length_lem",
    "line-of": "line_of_lem",
    "low-bytes": "low_bytes_lem",
    "pixel-bytes": "pixel_bytes_lem",
    "status-of": "status_of_lem",
    "x-of": "x_of_lem",
    # A fact is spelled as a type.
    "differsAt": "DiffersAt",
}
# Lemmas that had their definition's name in another spelling already, by the one file that knows them.
IN_FILE = {
    "crates/compare/proofs/Whole.antt": {"in_cell": "in_cell_lem", "on_line": "on_line_lem"},
}


def lemma_files():
    for crate in sorted((ROOT / "crates").iterdir()):
        yield from sorted((crate / "specs").rglob("*.antt"))
        for file in sorted((crate / "proofs").rglob("*.antt")):
            if file.name != "Proof.antt":
                yield file


def snake(name):
    if name in SPECIAL:
        return SPECIAL[name]
    parts = []
    for part in name.split("-"):
        part = re.sub(r"16K", "16k", part)
        part = re.sub(r"48K", "48k", part)
        parts.append(CAMEL.sub("_", part).lower())
    return "_".join(parts)


def table():
    names = {}
    for file in lemma_files():
        for line in file.read_text(encoding="utf-8").splitlines():
            if line.lstrip().startswith(("--", "use ", "mod ", "pub mod ", "module ", "λ", "(")):
                continue
            found = DECLARED.match(line)
            if not found or not found[1][0].islower() or found[1] in KEPT:
                continue
            new = snake(found[1])
            if new != found[1]:
                names[found[1]] = new
    names["Bits·bit"] = "bit"
    return names


def clause_lines(text):
    """The lines of a source file that a contract stands on."""
    for number, line in enumerate(text.splitlines()):
        if re.match(r"\s*(ghost |requires|ensures)", line):
            yield number


def files():
    for crate in sorted((ROOT / "crates").iterdir()):
        for folder in ("specs", "proofs"):
            yield from sorted((crate / folder).rglob("*.antt"))
        yield from sorted((crate / "src").rglob("*.rt"))
        yield from sorted((crate / "must-fail").glob("*.edit"))


def renamed(text, names, only=None):
    def one(line):
        if line.startswith("-- ") and only is None:
            return line
        return TOKEN.sub(lambda m: names.get(m[0], m[0]), line)

    lines = text.split("\n")
    out = "\n".join(one(line) if only is None or n in only else line for n, line in enumerate(lines))
    return out.replace("{bit as bit}", "{bit}")


def main():
    names = table()
    dry = "--dry" in sys.argv
    if dry:
        back = {}
        for old, new in sorted(names.items()):
            back.setdefault(new, []).append(old)
            print(f"{old} {new}")
        for new, olds in back.items():
            if len(olds) > 1:
                print(f"TOGETHER {new}: {' '.join(olds)}")
    for file in files():
        text = file.read_text(encoding="utf-8")
        before = IN_FILE.get(str(file.relative_to(ROOT)), {})
        text = renamed(text, before) if before else text
        if file.suffix == ".rt":
            out = renamed(text, names, set(clause_lines(text)))
        else:
            out = renamed(text, names)
        if dry:
            tokens = {}
            for n, line in enumerate(text.split("\n"), 1):
                if line.lstrip().startswith(("-- ", "//")):
                    continue
                for m in TOKEN.finditer(line):
                    tokens.setdefault(m[0], n)
            for old, new in names.items():
                if old in tokens and new in tokens:
                    print(f"MEETS {file.relative_to(ROOT)}: {old} ({tokens[old]}) -> {new} ({tokens[new]})")
        elif out != file.read_text(encoding="utf-8"):
            file.write_text(out, encoding="utf-8")


main()
