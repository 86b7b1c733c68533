#!/usr/bin/env python3
"""A gateway that is ended hard, again and again, while clients upload and delete: nothing acknowledged may be lost.

    python3 tests/clients/kills.py [--program PATH] [--indexes DIR] [--kills N] [--clients N] [--seed N]

It formats a spool in a temporary folder and serves it at a port of 127.0.0.1. Each time the server is ended by SIGKILL,
by its own process id, at a random moment; started again, each client asks for the offset, which must be no less than
what was acknowledged and no more than what was sent, goes on there, and compares the whole text at the end. The length
of some uploads comes with their last bytes or after them. Whole uploads are deleted meanwhile: after each start those
whose deletion was acknowledged are still gone, no number comes twice, and the texts of the others are compared again
before they are deleted, or at the end. For the first half of the ends the spool is of version 1; then it is upgraded,
by runs that are ended hard too. A connection that breaks, a reply in part and a refused connection are failures unless
the server was ended meanwhile; a hang always is one. The status is 0 where all was so, and where one end in 25 at
least met an open gate: a commit that stands and isn't at its places yet. (SIGKILL ends a process and leaves the
kernel's cache: it tries recovery; power.py tries the disk.)
"""

import http.client
import subprocess
import tempfile
import threading
import time
from pathlib import Path

from harness import ENCODINGS, Client, Refused, Sample, Server, Wrong, format_spool, has_open_gate, holds, indexes_in
from harness import make_old, parser_of, random_sample, rng_of, version_of

BLOCKS = 8192
MOST_KEPT = 20
MOST_UPGRADES = 20
LOST = (OSError, http.client.HTTPException)


class Load:
    """What the clients share: the server, the port where they look for it, and the counts."""

    def __init__(self, server):
        self.server, self.port = server, server.port
        self.lock = threading.Lock()
        self.over = threading.Event()
        # (counts the ends and the starts of the server: odd while it is down)
        self.phase = 0
        self.uploads = self.pieces = self.resumes = self.unanswered = self.open_gates = 0
        self.made, self.gone, self.wrong = set(), [], []

    def client(self):
        """A client of the server that there is now, and the phase that it is of."""
        with self.lock:
            client = Client(self.port)
            client.phase, client.reopens = self.phase, False
        return client

    def excuse(self, client, error):
        """Fails unless the server was ended since this client was made. A hang has no excuse: an end closes what is
        open, and so the client would know."""
        with self.lock:
            ended = client.phase % 2 == 1 or client.phase != self.phase
        client.close()
        if not ended or isinstance(error, TimeoutError):
            raise Wrong(f"the server wasn't ended, and a client met {error!r}")

    def is_down(self):
        with self.lock:
            self.phase += 1

    def is_up(self):
        with self.lock:
            self.phase += 1
            self.port = self.server.port

    def count(self, **more):
        with self.lock:
            for name, number in more.items():
                setattr(self, name, getattr(self, name) + number)

    def is_made(self, path):
        """A new upload's number is that of none before."""
        with self.lock:
            again = path in self.made
            self.made.add(path)
        if again:
            self.is_wrong(f"{path}: its number came before")

    def is_deleted(self, path):
        with self.lock:
            self.gone.append(path)

    def deleted(self):
        """The uploads whose deletion was acknowledged so far."""
        with self.lock:
            return list(self.gone)

    def is_wrong(self, line):
        with self.lock:
            self.wrong.append(line)


def long_sample(rng):
    """Several texts of one encoding, joined: enough for many pieces."""
    label = rng.choice(list(ENCODINGS))
    parts = [random_sample(rng, label) for _ in range(12)]
    parts = [part for part in parts if (part.label, part.to) == (parts[0].label, parts[0].to)]
    data, text = b"".join(part.data for part in parts), b"".join(part.text for part in parts)
    return Sample(parts[0].label, data, text, parts[0].to)


def until_answered(load, ask):
    """What a question to the server is answered with, asked again by another client whenever the server was ended."""
    for _ in range(1200):
        client = load.client()
        try:
            return ask(client)
        except LOST as error:
            load.excuse(client, error)
            time.sleep(0.05)
    raise Wrong("there is no server for a minute")


def create(load, sample, deferred):
    """The path of a new upload and the client that made it."""

    def ask(client):
        return client, client.create(sample, deferred)

    client, path = until_answered(load, ask)
    load.is_made(path)
    return client, path


def resume(load, path, acknowledged, sent):
    """Where to go on, once the server is there again: between what was acknowledged and what was sent."""

    def ask(client):
        return client, client.offset(path)

    client, offset = until_answered(load, ask)
    load.count(resumes=1)
    holds(f"{path}: {offset} bytes, {acknowledged} acknowledged, {sent} sent", acknowledged <= offset <= sent)
    return client, offset


def upload(load, rng, sample):
    """The path of one upload, taken to its end through any number of ends of the server."""
    deferred, whole = rng.randrange(3) == 0, len(sample.data)
    client, path = create(load, sample, deferred)
    offset, sent, declared = 0, 0, not deferred
    while offset < whole or not declared:
        piece = sample.data[offset : offset + rng.randrange(1, 6000)]
        sent = max(sent, offset + len(piece))
        # (with the last bytes, or after them)
        declares = deferred and (offset == whole or sent == whole and rng.randrange(2) == 0)
        try:
            offset = client.patch(path, offset, piece, whole if declares else None)
            declared |= declares
            load.count(pieces=1)
        except LOST as error:
            load.excuse(client, error)
            client, offset = resume(load, path, offset, sent)
    client.close()
    load.count(uploads=1)
    return path


def compare(load, path, sample):
    """The whole text, asked for until a server gives it."""
    until_answered(load, lambda client: compare_once(client, path, sample))


def compare_once(client, path, sample):
    right = client.text(path) == sample.text and client.length(path) == len(sample.data)
    holds(f"{path}: {sample.label} to {sample.to}, another text or length", right)


def delete(load, path, sample):
    """Deletes an upload. Where the server was ended before it answered, the upload is there whole or gone."""
    asked = False

    def ask(client):
        nonlocal asked
        again = asked
        try:
            if again:
                compare_once(client, path, sample)
            client.delete(path)
        except ConnectionRefusedError:
            raise
        except LOST:
            load.count(unanswered=0 if again else 1)
            asked = True
            raise
        except Refused as refused:
            if not again or refused.status != 404:
                raise

    until_answered(load, ask)
    load.is_deleted(path)


def work(load, place, seed):
    """One client: uploads, some of which it deletes again, until the last end of the server."""
    rng, kept = rng_of(seed, "kills", place), []
    try:
        while not load.over.is_set():
            sample = long_sample(rng)
            path = upload(load, rng, sample)
            compare(load, path, sample)
            kept.append((path, sample))
            if len(kept) > MOST_KEPT or rng.randrange(2) == 0:
                path, sample = kept.pop(rng.randrange(len(kept)))
                compare(load, path, sample)
                delete(load, path, sample)
        for path, sample in kept:
            compare(load, path, sample)
    except Exception as error:  # (whatever it is, the run fails by it)
        load.is_wrong(f"client {place}: {error!r}")


def end_again_and_again(load, given, spool):
    """Ends the server hard at random moments, and starts it again; halfway the spool is upgraded in between."""
    rng = rng_of(given.seed, "moments")
    for end in range(given.kills):
        time.sleep(rng.uniform(0.02, 1.0))
        load.is_down()
        load.server.kill()
        load.count(open_gates=has_open_gate(spool))
        if end == given.kills // 2:
            upgrade(load, given.program, spool, rng)
        load.server.start()
        ask_for_deleted(load)
        load.is_up()
        if load.wrong:
            break
    load.over.set()


def upgrade(load, program, spool, rng):
    """Brings the spool to version 2 by runs that are ended hard at random moments, but for the last one."""
    for number in range(MOST_UPGRADES):
        run = subprocess.Popen([program, "upgrade", str(spool)], stdout=subprocess.PIPE, stderr=subprocess.PIPE)
        try:
            out, said = run.communicate(timeout=rng.uniform(0.0, 0.3) if number < MOST_UPGRADES - 1 else 60)
        except subprocess.TimeoutExpired:
            run.kill()
            run.communicate()
            continue
        # (a run before may have been ended after its commit)
        done = run.returncode == 0 and out == b"upgraded to version 2\n"
        if not (done or number > 0 and said == b"refused: 35 AlreadyNew\n") or version_of(spool) != 2:
            load.is_wrong(f"upgrade {number}: status {run.returncode}, {out} {said}")
        print(f"upgraded, {number} runs ended before")
        return
    load.is_wrong("the upgrade doesn't end")


def ask_for_deleted(load):
    """What was deleted is still gone. (Clients hear of a server's port after this.)"""
    client = Client(load.server.port)
    for path in load.deleted():
        if not client.is_gone(path):
            load.is_wrong(f"{path}: there again")
    client.close()


def run(server, given, spool):
    load = Load(server)
    clients = [threading.Thread(target=work, args=(load, n, given.seed), daemon=True) for n in range(given.clients)]
    for client in clients:
        client.start()
    try:
        end_again_and_again(load, given, spool)
    except (Wrong, OSError, http.client.HTTPException) as error:
        load.is_wrong(f"the server: {error!r}")
    finally:
        load.over.set()
    until = time.monotonic() + (5 if load.wrong else 300)
    for client in clients:
        client.join(max(0, until - time.monotonic()))
    if not load.wrong:
        judge(load, given, clients)
    print(f"{load.phase // 2} ends, {load.uploads} uploads, {load.pieces} pieces acknowledged, {load.resumes} resumes")
    print(f"{len(load.gone)} deletions, {load.unanswered} of them unanswered at first; {load.open_gates} open gates")
    print("\n".join(load.wrong) or "nothing acknowledged was lost, and every text was right")
    return 1 if load.wrong else 0


def judge(load, given, clients):
    """What has to hold at the end: no client hangs, and the run saw what it is there for."""
    if any(client.is_alive() for client in clients):
        load.is_wrong("a client hangs")
    ask_for_deleted(load)
    floors = {"uploads": given.kills // 2, "resumes": given.kills // 2, "open_gates": given.kills // 25}
    for name, floor in floors.items():
        if getattr(load, name) < floor:
            load.is_wrong(f"{getattr(load, name)} {name}, at least {floor} expected")


def main():
    words = parser_of(__doc__)
    words.add_argument("--kills", type=int, default=100, help="how often the server is ended (100)")
    words.add_argument("--clients", type=int, default=8, help="how many clients upload, at most 15 (8)")
    given = words.parse_args()
    with tempfile.TemporaryDirectory() as folder:
        spool = Path(folder, "spool")
        format_spool(given.program, spool, BLOCKS, indexes_in(folder, given.indexes))
        make_old(spool)
        server = Server(given.program, spool)
        try:
            return run(server, given, spool)
        finally:
            server.kill()


if __name__ == "__main__":
    raise SystemExit(main())
