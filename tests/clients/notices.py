#!/usr/bin/env python3
"""The scripts of this folder over programs made wrong: each has to fail, by the assertion that is there for it.

    python3 tests/clients/notices.py [--program PATH] [--only WORD]

A program made wrong stands for the right one and does one thing that no gateway may do (wrongs.py). Each script is run
over it with small counts; printed is by which words it failed. Before that each script is run over a program that
stands for the right one in the same ways and does nothing wrong, which has to pass. The status is 0 where all of this
was so.
"""

import re
import subprocess
import sys
import tempfile
from pathlib import Path

import wrongs
from harness import parser_of

HERE = Path(__file__).resolve().parent
COUNTS = {
    "clients.py": ["--clients", "4", "--at-once"],
    "kills.py": ["--kills", "10", "--clients", "5"],
    "growths.py": ["--every", "25", "stored run", "deletion", "raise"],
    "hostile.py": ["--spools", "25", "--heads", "3", "--files", "10"],
    "syncs.py": ["--changes", "20"],
    "power.py": ["--runs", "1", "--changes", "8", "--images", "1", "--places", "30"],
    "streams.py": [],
    "closes.py": ["--trials", "10", "--short"],
    "exports.py": [],
    "logs.py": ["--short"],
    "operators.py": ["--indexes", str(HERE.parent.parent / "indexes")],
}

# What stands for the right program and does nothing wrong.
RIGHT = {script: "nothing" if script in ("clients.py", "kills.py", "logs.py") else "each sync" for script in COUNTS}

# Each deed, the script that has to notice it, and the words of the assertion by which it does.
WANTED = [
    ("a PATCH dropped, its 409 healed", "clients.py", "refused with 409 at"),
    ("a PATCH dropped, its 409 healed", "kills.py", "refused with 409 at"),
    ("an offset told too small", "clients.py", "the offset after"),
    ("a cut body dropped", "clients.py", "no byte of any cut body was kept"),
    ("a commit told as refused", "clients.py", "507, X-Refusal 17"),
    ("a commit told as refused", "kills.py", "507, X-Refusal 17"),
    ("a commit told as out of memory", "growths.py", "bytes, told were"),
    ("no library reaches it", "growths.py", "0 allocations were refused, at least"),
    ("a raise that does nothing", "growths.py", "the next number"),
    ("an upload lost at an opening", "growths.py", "the uploads before|the replies"),
    ("an upload lost at an opening", "kills.py", "404, X-Refusal 8"),
    ("an upload lost at an opening", "power.py", "changes were acknowledged, not|the uploads"),
    ("a server that ends by itself", "clients.py", "Wrong: the server ended by itself"),
    ("a server that ends by itself", "kills.py", "ended by itself|the server wasn't ended"),
    ("a text cut short", "kills.py", "the server wasn't ended, and a client met IncompleteRead"),
    ("a broken head", "kills.py", "the server wasn't ended, and a client met BadStatusLine"),
    ("a damaged spool taken as empty", "hostile.py", "the refusal|the uploads"),
    ("damage told as a device fault", "hostile.py", "ended with status 3"),
    ("entries of an index exchanged", "hostile.py", "character [0-9]+ of"),
    ("no library reaches it", "syncs.py", "format:"),
    ("no sync", "syncs.py", "script:"),
    ("the journal not synced", "syncs.py", "script:"),
    ("the open gate not synced", "syncs.py", "script:"),
    ("the places not synced", "syncs.py", "script:"),
    ("the closed gate not synced", "syncs.py", "script:"),
    ("the folder not synced", "syncs.py", "format:"),
    ("data alone synced", "syncs.py", "format:"),
    ("no library reaches it", "power.py", "the changes acknowledged"),
    ("no sync", "power.py", "changes were acknowledged, not|the spool isn.t whole, and it was told"),
    ("the journal not synced", "power.py", "an opening ends with status 2|the uploads|the text of"),
    ("the open gate not synced", "power.py", "an opening ends with status 2|the uploads|the text of"),
    ("the closed gate not synced", "power.py", "an opening ends with status 2|the uploads|the text of"),
    ("the places not synced", "power.py", "an opening ends with status 2|the uploads|the text of"),
    ("lines printed into the spool", "streams.py", "the spool of list SPOOL >&-"),
    ("lengths compared alone", "exports.py", "the status of"),
    ("a socket closed with bytes unread", "closes.py", "bytes behind a refusal"),
    ("a request logged that never was", "logs.py", "the lines of these"),
    ("a cut body logged without its upload", "logs.py", "the end of the line of a cut body"),
    ("any file overwritten", "operators.py", "the refusal of"),
    ("other indexes taken as the standard's", "operators.py", "the status of other files"),
    ("uploads deleted that were kept", "operators.py", "where all are kept"),
    ("a raise that does nothing", "operators.py", "the number after a raise"),
    ("a loss passed as none", "operators.py", "the status and the text"),
    ("a spool's indexes not told", "operators.py", "what `list` says of it"),
    ("an unknown number to keep passed over", "operators.py", "the refusal of"),
    ("hidden characters shown", "operators.py", "hidden characters in JSON"),
    ("an export that ends at an unread file", "exports.py", "the lines where|the files beside"),
]


def ran(folder, program, deed, script):
    """What a script says over a program made wrong, and its status."""
    wrong = Path(folder, deed.replace(" ", "_"))
    if not wrong.exists():
        wrongs.build(folder, deed, program)
    words = [sys.executable, str(HERE / script), "--program", str(wrong), *COUNTS[script]]
    run = subprocess.run(words, capture_output=True, text=True, timeout=600)
    return run.returncode, run.stdout + run.stderr


def noticed(folder, program, deed, script, words):
    """Whether a script failed by the assertion with these words; the line is printed."""
    status, said = ran(folder, program, deed, script)
    lines = [line for line in said.splitlines() if re.search(words, line)]
    by = lines[0].strip()[:150] if status and lines else f"NOT NOTICED: status {status}, {said[-300:]!r}"
    print(f"| {deed} | {script} | {by} |", flush=True)
    return bool(status and lines)


def main():
    parser = parser_of(__doc__)
    parser.add_argument("--only", default="", help="only what has this word in its deed or its script")
    given = parser.parse_args()
    missed = 0
    print("| Wrong program | Script | Noticed by |\n|---|---|---|")
    with tempfile.TemporaryDirectory() as folder:
        for script in COUNTS:
            if given.only in f"nothing {script}":
                status, said = ran(folder, given.program, RIGHT[script], script)
                by = "passes" if status == 0 else f"FAILS: {said[-300:]!r}"
                print(f"| nothing wrong | {script} | {by} |", flush=True)
                missed += status != 0
        for deed, script, words in WANTED:
            if given.only in f"{deed} {script}":
                missed += not noticed(folder, given.program, deed, script, words)
    print(f"{missed} missed" if missed else "each was noticed, and what is right passed")
    raise SystemExit(1 if missed else 0)


if __name__ == "__main__":
    main()
