#!/usr/bin/env python3
"""The tests of the page that uploads over pages made wrong: each has to fail.

    python3 tests/clients/mends.py --indexes DIR [--program PATH] [--only WORD]

A page made wrong has one place of packaging/ changed, in a copy of the tree, so that it does one thing that the page
may not do. Over it a test in node is run, or a case of page.py in chromium; before that, each over the page as it is.
The status is 0 where these pass and those fail.
"""

import shutil
import subprocess
import sys
import tempfile
from pathlib import Path

from harness import ROOT, parser_of

WEB = "packaging/web/"
BROWSERS = "packaging/nginx/wovelatsa-browsers.conf"
# For how many seconds a test is waited for: one that never ends fails too.
LONGEST = 100
# The deed; the file, its text and another one; the test in node by words of its name, or the case of page.py.
MENDS = [
    ("the last piece counts before it is acknowledged", WEB + "tus.js", 'end === file.size ? "sent" : before',
     'end === file.size ? "acknowledged" : before', "node", "what is remembered of its end"),
    ("a 404 is told as done", WEB + "card.js",
     'return this.turn("perhaps", { alert: last === "sent" ? texts.perhaps : texts.perhapsLater });',
     "return this.end.show();", "page", "cleaned_up"),
    ("any file of the name is gone on with", WEB + "prints.js",
     "return first === print.first && last === print.last;", "return first !== last || true;", "page", "same_name"),
    ("the end of what was sent isn't compared", WEB + "prints.js",
     "return first === print.first && last === print.last;", "return first === print.first;", "node",
     "wherever it differs"),
    ("without digests nobody is asked", WEB + "card.js", "same === null && upload.offset > 0", "false", "page",
     "plain_http"),
    ("all files are sent at once", WEB + "page.js", "const AT_ONCE = 2;", "const AT_ONCE = 12;", "page",
     "twelve_slowly"),
    ("pieces stay as large as they are", WEB + "tus.js", "bounded(course.piece / 2)", "course.piece", "node",
     "the next ones are smaller"),
    ("a silent server is waited for", WEB + "requests.js", "timer = setTimeout(pass, patience.silence);",
     "timer = null;", "node", "ends by silence"),
    ("a page to sign in is taken for the gateway", WEB + "requests.js",
     'if (reply.headers.get("Tus-Resumable") === null) {', "if (reply === null) {", "node", "a page to sign in"),
    ("another upload of the number is gone on with", WEB + "tus.js",
     "size !== file.size || metadata !== upload.metadata || offset > size", "offset > file.size", "node",
     "another upload of the number"),
    ("what couldn't be deleted is forgotten", WEB + "card.js", 'return this.turn("undeleted", {',
     'this.page.store.forget(this.upload); return this.turn("gone", {', "page", "unknown_user"),
    ("one broken entry hides all", WEB + "store.js", "return whole ? it : null;\n    } catch {\n        return null;",
     "return whole ? it : null;\n    } catch {\n        throw new Error(entry);", "node", "hides no other one"),
    ("two windows send one upload", WEB + "course.js", "if (!navigator.locks) {", "if (navigator.locks) {", "page",
     "two_windows"),
    ("a text that doesn't come is waited for", WEB + "requests.js", "timer = setTimeout(pass, patience.silence);",
     "timer = null;", "page", "stalled"),
    ("no room is never asked for again", WEB + "course.js", "}, patience.room);", "}, 2 ** 30);", "page", "room_again"),
    ("a file above what the server takes is sent", WEB + "card.js", "const LARGEST = 1 << 30;",
     "const LARGEST = 2 ** 50;", "page", "too_large"),
    ("two files of one name are one", WEB + "page.js", "if (known && (await areSame(known.file, file))) {",
     "if (known) {", "page", "twins"),
    ("the sample lets everybody read", BROWSERS, "    # GET    0;", "    GET    0;", "page", "forbidden"),
]


def tried(tree, given, kind, name):
    """Whether a test passes over a tree, and what it says."""
    if kind == "node":
        words = ["node", "--test", "--test-timeout=20000", f"--test-name-pattern={name}", "tests/clients/web/"]
    else:
        words = [sys.executable, "tests/clients/page.py", "--program", given.program, "--indexes", given.indexes]
        words += ["--cases", name]
    try:
        run = subprocess.run(list(map(str, words)), cwd=tree, capture_output=True, text=True, timeout=LONGEST)
    except subprocess.TimeoutExpired:
        return False, f"no end after {LONGEST} s"
    return run.returncode == 0, (run.stdout + run.stderr).strip()


def changed(folder, file, old, new):
    """A copy of the tree with one place changed."""
    for part in ("packaging", "tests/clients"):
        shutil.copytree(ROOT / part, folder / part, ignore=shutil.ignore_patterns("__pycache__"))
    text = (folder / file).read_text()
    if text.count(old) != 1:
        raise ValueError(f"{file} has {old!r} {text.count(old)} times")
    (folder / file).write_text(text.replace(old, new))
    return folder


def main():
    parser = parser_of(__doc__)
    parser.add_argument("--only", default="", help="only what has this word in its deed or its test")
    given = parser.parse_args()
    given.program, given.indexes = Path(given.program).resolve(), Path(given.indexes).resolve()
    mends = [it for it in MENDS if given.only in f"{it[0]} {it[5]}"]
    missed = []
    for kind, name in sorted({it[4:] for it in mends}):
        passed, said = tried(ROOT, given, kind, name)
        if not passed:
            missed.append(name)
            print(f"{name} fails over the page as it is: {said[-400:]}")
    for deed, file, old, new, kind, name in mends:
        with tempfile.TemporaryDirectory() as place:
            passed, _ = tried(changed(Path(place, "tree"), file, old, new), given, kind, name)
        print(f"| {deed} | {name} | {'NOT NOTICED' if passed else 'noticed'} |", flush=True)
        missed += [deed] if passed else []
    print(f"{len(mends)} pages made wrong, {len(missed)} not noticed or wrong before")
    return bool(missed)


if __name__ == "__main__":
    sys.exit(main())
