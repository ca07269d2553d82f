#!/usr/bin/env python3
"""Usage: checks/check-edits.py [CRATE [EDIT ..]]

Tries the must-fail edits crates/CRATE/must-fail/EDIT.edit, by default all, as `rt must-fail` does, but many in one check: each
in another function. `rt check` names the place and the clause of what it does not prove. An edit is refused if such a place is
in its function. An edit that no such check decides is tried alone, and then the crate must not be proved.

Prints a line for each edit, with what refused it. The status is 1 if one is not refused, or cannot be applied. The crate is
proved first, and its copies use what `rt check` keeps in out/. RT_JOBS is the number of crates at a time, by default that of
the processors.
"""

import concurrent.futures
import os
import re
import shutil
import subprocess
import sys
import tempfile
import threading

TOP = os.path.dirname(os.path.dirname(os.path.abspath(__file__)))
HEADER = re.compile(r"^( *)(?:pub(?:\([a-z ]+\))? )?(?:const )?(?:unsafe )?(?:extern \"C\" )?fn (\w+)")
REFUSAL = re.compile(r"^(?:note: )?(?:\./)?((?:src|specs|proofs)/\S+?):(\d+):\d+: (.*)")
UNREAD = "is not in scope|has no field|is no name|operand is missing|expected the end|cannot continue"
PROVING = threading.Lock()
# More of them in one check take more than 2.5 GB.
AT_ONCE = 25


class Edit:
    """A wrong body: the lines that it replaces, by file and number, and the functions that they are in."""

    def __init__(self, crate, name):
        self.crate, self.name, self.lines, self.functions, self.why = crate, name, {}, set(), None
        folder, path, old, texts = f"{TOP}/crates/{crate}", None, None, {}
        for line in read(f"{folder}/must-fail/{name}.edit").split("\n"):
            if line.startswith("file: "):
                path = line[len("file: ") :].strip()
                texts.setdefault(path, read(f"{folder}/{path}"))
            elif line.startswith("old: "):
                old = line[len("old: ") :]
            elif line.startswith("new:"):
                new = line[len("new:") :].removeprefix(" ")
                if texts[path].count(old) != 1:
                    self.why = f"an 'old:' text is in {path} {texts[path].count(old)} times"
                    return
                at = texts[path].count("\n", 0, texts[path].index(old))
                texts[path] = texts[path].replace(old, new)
                self.lines[path, at] = texts[path].split("\n")[at]
                self.functions.add(function_of(path, texts[path], at))
        if not self.lines:
            self.why = "it has no 'old:' and 'new:' pair"


def read(path):
    with open(path, encoding="utf-8") as file:
        return file.read()


def write(path, text):
    with open(path, "w", encoding="utf-8") as file:
        file.write(text)


def function_of(path, text, at):
    """Returns the file, and the first and last line of the innermost function around a line, attributes included, if any."""
    lines, found = text.split("\n"), None
    for start in range(at + 1):
        header = HEADER.match(lines[start])
        if header:
            end = next((it for it in range(start, len(lines)) if lines[it] == header[1] + "}"), start)
            while lines[start - 1].lstrip().startswith("#["):
                start -= 1
            found = (path, start, end) if end >= at else found
    return found


def verdict_of(output):
    """Returns the first word of the crate's verdict. The crates below may have printed others before."""
    lines = [it for it in output.split("\n") if it.startswith("logic=")]
    return lines[-1].split(" ")[0] if lines else None


def proved(output):
    return verdict_of(output) == "logic=proved"


def refusals(output):
    """Returns where `rt check` names what it does not prove: the file, the line, and the words. None if it stops earlier."""
    if verdict_of(output) != "logic=not-proved":
        return
    for line in output.split("\n"):
        found = REFUSAL.match(line)
        if found and ("is not proved" in found[3] or re.match("error: `[^`]*`: ", found[3])) and not re.search(UNREAD, found[3]):
            yield found[1], int(found[2]) - 1, line.removeprefix("note: ")


def is_unread(output):
    """Returns `True` if the prover cannot read a text of src/ or specs/, so that no contract was tried."""
    lines = [it for it in output.split("\n") if re.match(r"(\./)?(src|specs)/\S+?:\d+:\d+: error: ", it)]
    return any(not re.search("error: `[^`]*`: ", it) or re.search(UNREAD, it) for it in lines)


def link(source, target):
    try:
        os.link(source, target)
    except OSError:
        shutil.copy2(source, target)


class Copy:
    """A copy of the repository's crates that one crate needs, with what `rt check` kept."""

    def __init__(self, crate, room):
        self.crate, self.room = crate, room
        self.folder = f"{room}/crates/{crate}"
        for name in below(crate):
            copied = link if name != crate else shutil.copy2
            skip = shutil.ignore_patterns("must-fail", "target")
            shutil.copytree(f"{TOP}/crates/{name}", f"{room}/crates/{name}", copy_function=copied, ignore=skip)
        shutil.copy2(f"{TOP}/HANDLES", room)
        lines = [line for line in read(f"{TOP}/crates.txt").split("\n") if re.split("[ :]", line)[0] in below(crate)]
        write(f"{room}/crates.txt", "\n".join(lines) + "\n")
        subprocess.run(["git", "init", "-q", room], check=True)

    def check(self, edits):
        """Checks the crate with these edits, and returns the output. The copy is then as before."""
        changed = {}
        for edit in edits:
            for (path, at), line in edit.lines.items():
                if path not in changed:
                    changed[path] = read(f"{TOP}/crates/{self.crate}/{path}").split("\n")
                changed[path][at] = line
        for path, lines in changed.items():
            write(f"{self.folder}/{path}", "\n".join(lines))
        how = {"stdin": subprocess.DEVNULL, "stdout": subprocess.PIPE, "stderr": subprocess.STDOUT, "text": True}
        output = subprocess.run(["rt", "check", "--jobs", "1"], cwd=self.folder, errors="replace", **how).stdout
        for part in ("src", "specs", "proofs", "out"):
            if os.path.isdir(f"{TOP}/crates/{self.crate}/{part}"):
                shutil.rmtree(f"{self.folder}/{part}")
                shutil.copytree(f"{TOP}/crates/{self.crate}/{part}", f"{self.folder}/{part}")
        return output


def dependencies():
    """Returns the repository's crates, each with those that its line of crates.txt names."""
    found = {}
    for line in read(f"{TOP}/crates.txt").split("\n"):
        name, colon, words = line.partition("#")[0].partition(":")
        if colon:
            found[name.split()[0]] = words.split()
    return found


def below(crate):
    """Returns the crate and the repository's crates that it needs."""
    crates, found = dependencies(), set()
    left = [crate]
    while left:
        name = left.pop()
        if name in crates and name not in found:
            found.add(name)
            left += crates[name]
    return found


def apart(edits):
    """Returns edits of which no two change the same function, and the others. An edit outside all functions is alone."""
    first, rest, used = [], [], set()
    for edit in edits:
        if edit.functions & used or None in edit.functions:
            rest.append(edit)
        else:
            first.append(edit)
            used |= edit.functions
    return first, rest


def is_within(path, at, edit):
    return any(it and it[0] == path and it[1] <= at <= it[2] for it in edit.functions)


def verdict(edit, refused, words):
    mark = "refused, as it must be" if refused else "NOT REFUSED"
    return refused, f"must-fail {edit.crate}/{edit.name}: {mark}: {words[:160]}"


def alone(copy, edit):
    """Tries one edit in a check of its own."""
    output = copy.check([edit])
    found = sorted(refusals(output), key=lambda it: it[0].startswith("proofs/"))
    words = found[0][2] if found else "the crate is still proved" if proved(output) else output.strip()[-160:]
    return verdict(edit, verdict_of(output) == "logic=not-proved" and not is_unread(output), words)


def try_edits(crate, edits):
    """Returns for each edit whether it is refused, and the line to print."""
    tried = [(False, f"must-fail {it.crate}/{it.name}: BAD EDIT: {it.why}") for it in edits if it.why]
    left = [it for it in edits if not it.why]
    with tempfile.TemporaryDirectory(prefix="check-edits-") as room:
        copy = Copy(crate, room)
        while left:
            together, rest = apart(left)
            together, rest = together[:AT_ONCE], together[AT_ONCE:] + rest
            if len(together) < 2:
                break
            found = list(refusals(copy.check(together)))
            undecided = []
            for edit in together:
                words = next((words for path, at, words in found if is_within(path, at, edit)), None)
                if words:
                    tried.append(verdict(edit, True, words))
                else:
                    undecided.append(edit)
            left = undecided + rest
            if len(undecided) == len(together):
                break
        tried += [alone(copy, edit) for edit in left]
    return tried


def prove(crate):
    """Proves the crate in the repository. One at a time, because each proves the crates that it needs."""
    with PROVING:
        how = {"stdin": subprocess.DEVNULL, "stdout": subprocess.PIPE, "stderr": subprocess.STDOUT, "text": True}
        output = subprocess.run(["rt", "check"], cwd=f"{TOP}/crates/{crate}", errors="replace", **how).stdout
    return proved(output)


def task(crate, edits):
    if not prove(crate):
        return [(False, f"{crate} is not proved")]
    return try_edits(crate, edits)


def edits_of(crate):
    folder = f"{TOP}/crates/{crate}/must-fail"
    names = sorted(os.listdir(folder)) if os.path.isdir(folder) else []
    return [it.removesuffix(".edit") for it in names if not it.endswith(".md")]


def main():
    crates = sys.argv[1:2] or list(dependencies())
    try:
        parts = [(crate, [Edit(crate, it) for it in sys.argv[2:] or edits_of(crate)]) for crate in crates]
    except OSError as error:
        print(f"check-edits: {error.filename}: {error.strerror}", file=sys.stderr)
        return 2
    parts = sorted((part for part in parts if part[1]), key=lambda part: -len(part[1]))
    if not parts:
        print("check-edits: there is no edit", file=sys.stderr)
        return 2
    lanes = int(os.environ.get("RT_JOBS") or len(os.sched_getaffinity(0)))
    failed = 0
    with concurrent.futures.ThreadPoolExecutor(lanes) as pool:
        for tried in pool.map(lambda part: task(*part), parts):
            for refused, line in sorted(tried):
                print(line, flush=True)
                failed += not refused
    print(f"{failed} edits are not refused" if failed else "ok")
    return 1 if failed else 0


if __name__ == "__main__":
    sys.exit(main())
