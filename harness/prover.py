"""Crates with an edit, held to the prover: what harness/edits and harness/beyond share.

An edit is a text: lines with # say what it is; then for each file `file:`, and pairs of `old:` and `new:`, each one line or several one
after another. An old text stands exactly once in its file. A file with no old text is a new one. An edit that begins with `over:` and the name of
a form changes what that form made: the same code in another form, with its proof, in a text of the same kind beside the edit.

`rt check` keeps what it proved of a crate in crates/CRATE/out, and the prover takes its modules from there without checking them again. So an
edit is checked over a copy of that folder, by the prover's own command as `rt must-fail` gives it, and costs what depends on the changed
lines. (`rt must-fail` takes no edits of several lines or of several crates, and says only one line of what the prover said.) An accepted
crate would rest on that folder; that an edit is refused does not.
"""
import json
import os
import re
import shutil
import subprocess
import tempfile
import threading
from concurrent.futures import ThreadPoolExecutor
from pathlib import Path

TOP = Path(__file__).resolve().parent.parent
KIT = Path(os.environ.get("RATTLE_HOME") or Path(shutil.which("rt") or "/rt").resolve().parent.parent)


class BadEdit(Exception):
    pass


def changes(edit):
    """The edit's (file, old, new) in order; old is None for a new file."""
    found, last = [], None
    for line in edit.read_text("utf-8").splitlines():
        if not line.strip() or line.startswith("#"):
            continue
        word, _, text = line.partition(":")
        text = text[1:]
        if word == "over" and not found:
            found += changes(edit.parent / text)
        elif word == "file":
            found.append([text, None, None])
        elif word == "old" and found:
            if last == "new":
                found.append([found[-1][0], None, None])
            found[-1][1] = text if found[-1][1] is None else found[-1][1] + "\n" + text
        elif word == "new" and found:
            found[-1][2] = text if found[-1][2] is None else found[-1][2] + "\n" + text
        else:
            raise BadEdit(f"not a line of an edit: {line}")
        last = word
    return found


def apply(edit, folder):
    """Edits files below a folder, and gives their names."""
    todo = changes(edit)
    if not todo:
        raise BadEdit("it changes nothing")
    for name, old, new in todo:
        path = folder / name
        if new is None or Path(name).is_absolute() or ".." in Path(name).parts:
            raise BadEdit(f"{name}: no new text, or a path that leads away")
        if old is None:
            if path.exists():
                raise BadEdit(f"{name}: no old text, and the file stands already")
            path.parent.mkdir(parents=True, exist_ok=True)
            path.write_text(new + "\n", "utf-8")
            continue
        if not path.is_file():
            raise BadEdit(f"{name}: there is no such file")
        text = path.read_text("utf-8")
        if not old or text.count(old) != 1:
            raise BadEdit(f"{name}: stands {text.count(old)} times, not once: {old}")
        if old == new:
            raise BadEdit(f"{name}: old and new are the same: {old}")
        path.write_text(text.replace(old, new), "utf-8")
    return [name for name, _, _ in todo]


def dependencies():
    """For each crate of crates.txt the crates that it names, in the order of the file."""
    found = {}
    for line in (TOP / "crates.txt").read_text().splitlines():
        name, colon, rest = line.partition("#")[0].partition(":")
        if colon:
            found[name.strip()] = rest.split()
    return found


LOCKS = {name: threading.Lock() for name in dependencies()}
PROVED = {}


def proved(name):
    """The crate's folder with what `rt check` keeps of it. That is run first, once: it proves what is not proved yet, and builds the libraries below."""
    with LOCKS[name]:
        if name not in PROVED:
            ran = subprocess.run(
                ["rt", "check"], cwd=TOP / "crates" / name, stdin=subprocess.DEVNULL, stdout=subprocess.PIPE, stderr=subprocess.STDOUT, encoding="utf-8", errors="replace"
            )  # fmt: skip
            PROVED[name] = None if ran.returncode == 0 else "\n".join(first_error(ran.stdout)[:5] or ran.stdout.splitlines()[-5:])
    if PROVED[name] is not None:
        raise BadEdit(f"{name} is not proved:\n{PROVED[name]}")
    return TOP / "crates" / name / "out"


def linked(one, other):
    """A kept module is linked, where it can be: the prover writes a module anew, and never into a file. What two crates both kept is the same."""
    if os.path.exists(other):
        return
    try:
        if not str(one).endswith(".oantt"):
            raise OSError
        os.link(one, other)
    except OSError:
        shutil.copy2(one, other)


class Copy:
    """A folder with copies of some crates that may be edited, and the prover's incremental folder. All other crates are as proved."""

    def __init__(self, crates):
        self.crates = crates
        self.here = Path(tempfile.mkdtemp(prefix="edit-")).resolve()
        for name in crates:
            for part in "src", "specs", "proofs":
                if (TOP / "crates" / name / part).is_dir():
                    shutil.copytree(TOP / "crates" / name / part, self.here / "crates" / name / part)
            self.seed(name)

    def __enter__(self):
        return self

    def __exit__(self, *_):
        shutil.rmtree(self.here, ignore_errors=True)

    def seed(self, name):
        """What was proved of the crate goes into one folder with what was proved of the others."""
        shutil.copytree(proved(name) / "incremental", self.here / "checked", copy_function=linked, dirs_exist_ok=True)

    def prover(self, name, *more):
        """A run of the prover on the crate. A crate that was copied is taken as source by those above it."""
        uses, libraries = dependencies(), []
        words = ["--crate-name", name, f"crates/{name}/src/{root(name)}"]
        for d in "core", "std":
            words += ["--extern", f"{d}={KIT}/rlibs/{d}.rlib"]
        for d in uses[name]:
            kept = f"{TOP}/crates/{d}/out/rlib"
            words += ["--lib", f"{d}:{','.join(['core', 'std', *uses[d]])}=crates/{d}/src/lib.rt"] if d in self.crates else ["--extern", f"{d}={kept}/{d}.rlib"]
            libraries += ["-L", f"dependency={kept}"]
        words += [*libraries, "-L", f"dependency={KIT}/rlibs", "--jobs", "1"]
        words += ["--antt-project", KIT / "rattle" / "logic" / "antt-project.json", "--logic-built", KIT / "logic_built", "--incremental", "checked"]
        return subprocess.run(
            [KIT / "bin" / "rattle", "check", *words, *more],
            cwd=self.here, stdin=subprocess.DEVNULL, stdout=subprocess.PIPE, stderr=subprocess.STDOUT, encoding="utf-8", errors="replace",
        )  # fmt: skip

    def check(self, name):
        """Whether the prover accepts the crate; and what it said."""
        ran = self.prover(name)
        if ran.returncode == 0 and re.search(r"^logic=proved ", ran.stdout, re.M):
            return True, ran.stdout
        if ran.returncode == 1 and re.search(r"^logic=not-proved", ran.stdout, re.M):
            return False, ran.stdout
        raise BadEdit(f"{name}: no verdict of the prover (status {ran.returncode}):\n" + "\n".join(ran.stdout.splitlines()[:5]))

    def names(self, name):
        """The names of goals, places and steps of the crate's functions, each in the code's order, by the folder of the function's proof."""
        self.prover(name, "--generated", "names", "--old-names")
        found = {}
        for key, told in json.loads((self.here / "names" / "names.json").read_text("utf-8")).items():
            if "needs" in told:
                folder = re.sub(r"\.Lts[^.]*$", "", key.partition("-proofs.")[2]).replace(".", "/")
                found[folder] = [[new for _, new in told["needs"]], told["places_by_name"], [steps[1] for _, _, steps, *_ in told["places"]]]
        return found

    def follow(self, name, before):
        """Puts the crate's proofs under the names that goals and steps have now; before: those that they had. The prover makes them of the code, its numbers
        among them, so that an edit of a number leaves an answer without its goal, and says nothing of the fact."""
        for folder, now in self.names(name).items():
            was = before.get(folder, now)
            words = {a: b for old, new in zip(was, now) if len(old) == len(new) for a, b in zip(old, new) if a != b}
            if words:
                one = re.compile(r"(?<![\w'-])(" + "|".join(sorted(map(re.escape, words), key=len, reverse=True)) + r")(?![\w'-])")
                for path in (self.here / "crates" / name / "proofs" / folder).glob("*.antt"):
                    path.write_text(one.sub(lambda m: words[m[1]], path.read_text("utf-8")), "utf-8")


def root(name):
    return "main.rt" if (TOP / "crates" / name / "src" / "main.rt").is_file() else "lib.rt"


def first_error(log):
    """The lines of the first error that is not of another one's making; or what is not proved of a function with no proof of its own."""
    lines = log.splitlines()
    for i, line in enumerate(lines):
        if re.match(r"\S+:\d+:\d+: error: ", line) and not re.search(ANOTHER, line):
            end = next((k for k in range(i + 1, len(lines)) if not lines[k].startswith(" ")), len(lines))
            return lines[i:end]
    return [line for line in lines if "it is not proved that" in line][:1]


# What the prover says of what only depends on another error; where a fact does not hold; and where only a name or a shape is wrong.
ANOTHER = r"\d+ declarations? that depends? on .* w(as|ere) not checked"
FACT = r"two (types|sides)|expected type|no proof of|give a proof of that|does not hold|does not follow|it is not proved that|` ≟ `"
SHAPE = r"that can be named from here|has no field|record `\S+` \(nearest|not in scope"


def shows_nothing(error):
    """No fact is missing: the first line says that the proof's text no longer fits the code, or there is no error. Advice may follow it."""
    return re.search(FACT, "\n".join(error)) is None or re.search(SHAPE, error[0]) is not None


def short(error):
    """The place of an error and its first words."""
    return re.sub(r"^\S*?(?=crates/)", "", error[0])[:150]


def at_once(judge, todo):
    """What judge says of each, one more at once than there are cores; a bad edit is said as what is wrong."""

    def safely(x):
        try:
            return judge(x)
        except (BadEdit, OSError, subprocess.SubprocessError) as error:
            return str(error), None

    with ThreadPoolExecutor(int(os.environ.get("RT_JOBS", 0)) or min(4, os.cpu_count() or 1) + 1) as pool:
        yield from zip(todo, pool.map(safely, todo))
