#!/usr/bin/env python3
"""What an opening reads: neither of its two parts reads a place twice, so its reads can't contradict each other.

    python3 tests/clients/reads.py [--program PATH] [--indexes DIR] [--damages N] [--seed N]

The first part finds the spool and replays the journal, and the second begins with the state page. The reads are logged
by the library of calls.py. `list`, `delete`, `export`, `script`, `upgrade` and `raise` open spools of both versions,
with the gate closed and open, with and without uploads, and --damages spools with some bytes changed at random. What a
command reads after its opening counts as read by the second part. The status is 0 where no byte was read twice in a
part.
"""

import shutil
import tempfile
from collections import Counter
from pathlib import Path

from calls import Log
from harness import Wrong, indexes_in, make_old, parser_of, rng_of, same, write_at
from history import History
from spools import OPEN, PAGE, Spool

BLOCKS = 64
FIELDS = 12


def openings_in(calls):
    """The reads of each opening, as ranges: it begins with the first fields of page 0."""
    openings = []
    for call in calls:
        if call.kind == "g":
            if call.at == 0 and len(call.data) == FIELDS:
                openings.append([])
            openings[-1].append(range(call.at, call.at + len(call.data)))
    return openings


def parts_of(spool, reads):
    """The reads up to the end of the recovery, and those from the state page on."""
    end = next((k for k, read in enumerate(reads) if read.start == spool.state), len(reads))
    return reads[:end], reads[end:]


def is_read_once(what, reads):
    """Fails where two of these reads have a place in common."""
    ordered = sorted(reads, key=lambda read: read.start)
    for read, later in zip(ordered, ordered[1:]):
        if later.start < read.stop:
            raise Wrong(f"{what}: {read} and {later} were both read")


def try_command(log, program, name, words, counts):
    """A command over a copy of the spool, whatever its answer."""
    before = log.spool.read_bytes()
    spool = Spool(before)
    ran, calls = log.run(program, *words)
    openings = openings_in(calls)
    for reads in openings:
        for part in parts_of(spool, reads):
            is_read_once(f"{name}: {words[0]}", part)
    counts[f"{words[0]}: status {ran.returncode}"] += len(openings)
    log.spool.write_bytes(before)


def try_commands(log, program, name, folder, counts):
    """Each command over this spool."""
    commands = [["list"], ["list", "--long"], ["list", "--json"], ["delete", 1, 3, 1], ["script"], ["upgrade"]]
    for words in [*commands, ["raise", 10**6]]:
        try_command(log, program, name, words, counts)
    into = Path(folder, "texts")
    into.mkdir()
    try_command(log, program, name, ["export", "--all", into], counts)
    shutil.rmtree(into)


def with_open_gate(log):
    with open(log.spool, "r+b") as file:
        write_at(file, PAGE, bytes([OPEN]))


def damaged(data, rng):
    """A spool with some bytes changed, most of them before its texts."""
    data, end = bytearray(data), Spool(data).texts
    for _ in range(rng.randrange(1, 4)):
        place = rng.choice([rng.randrange(end), rng.randrange(3 * PAGE), rng.randrange(len(data))])
        data[place] = rng.choice([0, 1, OPEN, 255, rng.randrange(256)])
    return bytes(data)


def main():
    words = parser_of(__doc__)
    words.add_argument("--damages", type=int, default=60, help="how many spools with changed bytes (60)")
    given = words.parse_args()
    counts, rng = Counter(), rng_of(given.seed, "reads")
    with tempfile.TemporaryDirectory() as folder:
        log, indexes = Log(folder, Path(folder, "spool")), indexes_in(folder, given.indexes)
        made, _ = log.run(given.program, "format", "--blocks", BLOCKS, "--indexes", indexes)
        same("format: its status", made.returncode, 0)
        try_commands(log, given.program, "an empty spool", folder, counts)
        log.script(given.program, History(rng, 60).lines)
        try_commands(log, given.program, "a spool with uploads", folder, counts)
        new = log.spool.read_bytes()
        with_open_gate(log)
        try_commands(log, given.program, "a spool with its gate open", folder, counts)
        log.spool.write_bytes(new)
        make_old(log.spool)
        try_commands(log, given.program, "a spool of version 1", folder, counts)
        old = log.spool.read_bytes()
        with_open_gate(log)
        try_commands(log, given.program, "a spool of version 1 with its gate open", folder, counts)
        for k in range(given.damages):
            log.spool.write_bytes(damaged(rng.choice([new, old]), rng))
            try_commands(log, given.program, f"damage {k}", folder, counts)
    for what, count in sorted(counts.items()):
        print(f"{what}: {count} openings")
    print("no place was read twice in a part of an opening")


if __name__ == "__main__":
    try:
        main()
    except Wrong as error:
        raise SystemExit(str(error)) from None
