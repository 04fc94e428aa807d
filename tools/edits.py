#!/usr/bin/env python3
"""Writes docs/EDITS.md: each edit that must fail, what it turns, and the contract that refused it.

    .ci/run 2>&1 | tee gate.log; tools/planted 2>&1 | tee planted.log; tools/edits.py gate.log planted.log

The verdicts are taken from the lines `rt: must-fail` of the logs; a later log wins over an earlier one.
"""
import pathlib
import re
import sys

ROOT = pathlib.Path(__file__).resolve().parent.parent
VERDICT = re.compile(r"^rt: must-fail (\w+)/(\w+)\.edit: refused, as it must be(?: \(only because [^:]*: [^)]*\))?: (.*)$")
FUNCTION = re.compile(r"^\s*(?:pub(?:\([a-z]+\))? )?(?:ghost )?fn (\w+)")
IMPL = re.compile(r"^impl(?:<[^{]*?>)? (?:([\w:]+)(?:<.*?>)? for )?(\w+)")


def function_at(crate, file, line):
    """The function whose contract stands at a line of a source file."""
    name, owner, pending = "", "", False
    lines = (ROOT / "crates" / crate / file).read_text().splitlines()
    for number, text in enumerate(lines, 1):
        if text.startswith("impl"):
            found = IMPL.match(text)
            owner = found.group(2) if found else ""
        elif text and not text[0].isspace() and text[0] != "}":
            owner = ""
        found = FUNCTION.match(text)
        if found:
            name = f"{owner}::{found.group(1)}" if owner and text[0].isspace() else found.group(1)
        if number == line:
            # a verdict may stand at an attribute, which belongs to the function below it
            pending = text.strip().startswith("#[")
        if number >= line and name and (found or not pending):
            return name
    return name


def refused_by(crate, told):
    """The function and the goal that a verdict names."""
    goal = re.search(r"\(`([\w-]+)`|error: `([\w-]+)`", told)
    goal = (goal.group(1) or goal.group(2)) if goal else ""
    place = re.match(r"(?:note: |error: )?(\S+?):(\d+):", told)
    if not place:
        return told.split(":")[0], goal
    file, line = place.group(1), int(place.group(2))
    if file.startswith("src/"):
        return function_at(crate, file, line), goal
    parts = pathlib.PurePath(file).parts
    return ("::".join(parts[parts.index("proofs") + 1 : -1][-2:]) or parts[-1]), goal


def clause(goal):
    """The clause of the contract, where the goal is of one."""
    named = re.search(r"clause-([a-z_]+)", goal)
    if named:
        return f"`{named.group(1)}`"
    if goal.startswith("returns"):
        return "what it ensures"
    if "preserved" in goal or "invariant" in goal or "initial" in goal:
        return "what lasts in its loop, or in its type"
    return f"`{goal}`" if goal else ""


def pairs(text):
    """The turned texts of an edit."""
    olds = re.findall(r"^old: ?(.*)$", text, re.M)
    news = re.findall(r"^new: ?(.*)$", text, re.M)
    return list(zip(olds, news))


def cell(text):
    text = text.strip()
    return f"`{text}`".replace("|", "\\|") if text else "nothing"


def main():
    verdicts = {}
    for log in sys.argv[1:]:
        for line in pathlib.Path(log).read_text(errors="replace").splitlines():
            found = VERDICT.match(line)
            if found:
                verdicts[found.group(1), found.group(2)] = found.group(3)
    crates = [line.split(":")[0] for line in (ROOT / "crates.txt").read_text().splitlines() if line]
    out = [
        "# The edits that must fail",
        "",
        "Each row is a mistake planted in the code, one at a time: what stood, what was put in its place, and the function whose contract, or",
        "whose loop, was refused then. The gate tries all of them but those with a star, which `tools/planted` tries. Made by `tools/edits.py` from",
        "the logs of both.",
    ]
    missing = []
    for crate in crates:
        tried = [(ROOT / "crates" / crate / "must-fail", ""), (ROOT / "planted" / crate, " *")]
        edits = sorted((edit.stem, edit, star) for folder, star in tried for edit in folder.glob("*.edit"))
        if not edits:
            continue
        out += ["", f"## {crate}", "", "| Edit | Stood | Put in its place | Refused by |", "|---|---|---|---|"]
        for name, edit, star in edits:
            told = verdicts.get((crate, name))
            if told is None:
                missing.append(f"{crate}/{name}")
                by = ""
            else:
                function, goal = refused_by(crate, told)
                by = f"`{function}`, {clause(goal)}" if clause(goal) else f"`{function}`"
            turned = pairs(edit.read_text())
            old = "<br>".join(cell(o) for o, _ in turned)
            new = "<br>".join(cell(n) for _, n in turned)
            out.append(f"| {name}{star} | {old} | {new} | {by} |")
    if missing:
        print("nothing is written; no verdict in the logs:", *missing, file=sys.stderr)
        return 1
    (ROOT / "docs" / "EDITS.md").write_text("\n".join(out) + "\n")
    return 0


if __name__ == "__main__":
    sys.exit(main())
