#!/usr/bin/env python3
"""A spool that is put back from a copy, with clients that remember their URLs.

    /usr/bin/python3 tests/clients/restores.py [--program PATH] [--indexes DIR] [--seed N] [--rounds N]

Clients begin uploads in every encoding, a copy of the spool is taken while nobody serves it, they go on, and others
begin new ones. Then the copy is put back, raised above all numbers that were given, and served, and new uploads are
begun. Each client of before goes on with the URL that it remembers: one of an upload that the copy has goes on where
HEAD says, and its text is right; any other is told 404. No upload has a byte of another client's. The same without the
raise shows what it is for: clients find another's upload under their URL. tuspy is the client where it is there
(Debian: python3-tuspy).
"""

import io
import subprocess
import tempfile
from pathlib import Path

from harness import (
    ENCODINGS,
    Client,
    Server,
    Wrong,
    format_spool,
    has_tuspy,
    holds,
    indexes_in,
    parser_of,
    random_sample,
    rng_of,
    same,
)

# How many numbers more than those that were given a spool is raised by.
MORE = 1_000_000


class Remembers:
    """A client that has a text, and the path of its upload."""

    def __init__(self, server, sample):
        self.server, self.sample = server, sample
        self.size = max(1, len(sample.data) // 3)
        client = Client(server.port)
        self.path = client.create(sample)
        client.close()

    def begins(self):
        """Sends the first piece."""
        client = Client(self.server.port)
        client.patch(self.path, 0, self.sample.data[: self.size])
        client.close()

    def goes_on(self):
        """Sends what is left, from where HEAD says: whether it was told that its upload isn't there."""
        return self.by_tuspy() if has_tuspy() else self.by_hand()

    def by_tuspy(self):
        from tusclient.client import TusClient
        from tusclient.exceptions import TusCommunicationError

        root = f"http://127.0.0.1:{self.server.port}"
        try:
            it = TusClient(f"{root}/files").uploader(
                file_stream=io.BytesIO(self.sample.data), chunk_size=self.size, url=root + self.path
            )
            it.upload()
        except TusCommunicationError as error:
            return error.status_code == 404
        return False

    def by_hand(self):
        client = Client(self.server.port)
        try:
            offset = client.offset(self.path)
            while offset < len(self.sample.data):
                offset = client.patch(self.path, offset, self.sample.data[offset : offset + self.size])
        except Wrong as refused:
            return getattr(refused, "status", None) == 404
        finally:
            client.close()
        return False

    def text(self):
        client = Client(self.server.port)
        try:
            return client.text(self.path)
        finally:
            client.close()


def begun(server, rng):
    """A client for each encoding, with the first piece of its text sent."""
    clients = [Remembers(server, random_sample(rng, label)) for label in ENCODINGS]
    for it in clients:
        it.begins()
    return clients


def restored(words, folder, indexes, rng, is_raised):
    """What clients met after a copy was put back: how many went on, how many were told 404, and how many texts of all
    that were begun are wrong."""
    spool = Path(folder, "raised" if is_raised else "plain")
    format_spool(words.program, spool, 4096, indexes)
    server = Server(words.program, spool)
    try:
        old = begun(server, rng)
        server.kill()
        copy = spool.read_bytes()
        server.start()
        for it in old[::2]:
            it.goes_on()
        lost = begun(server, rng)
        server.kill()
        spool.write_bytes(copy)
        last = max(int(it.path.rpartition("/")[2]) for it in lost)
        if is_raised:
            done = subprocess.run([words.program, "raise", spool, str(last + MORE)], capture_output=True, check=True)
            same("what the raise prints", done.stdout, f"next number {last + MORE}\n".encode())
        server.start()
        new = begun(server, rng)
        gone = [it.goes_on() for it in old + lost + new]
        wrong = [it for it, is_gone in zip(old + lost + new, gone) if not is_gone and it.text() != it.sample.text]
    finally:
        server.kill()
    same("uploads of the copy, and new ones, that are told 404", sum(gone[: len(old)] + gone[len(old + lost) :]), 0)
    return sum(gone), len(lost), wrong


def main():
    parser = parser_of(__doc__)
    parser.add_argument("--rounds", type=int, default=3, help="how often a copy is put back")
    words = parser.parse_args()
    rng = rng_of(words.seed)
    told = mixed = 0
    with tempfile.TemporaryDirectory() as folder:
        indexes = indexes_in(folder, words.indexes)
        for _ in range(words.rounds):
            gone, lost, wrong = restored(words, folder, indexes, rng, True)
            same("clients of uploads that the copy lacks, told 404", gone, lost)
            same("texts that are wrong after a raise", [(it.path, it.sample.label) for it in wrong], [])
            told += gone
            _, _, wrong = restored(words, folder, indexes, rng, False)
            mixed += len(wrong)
            for name in "raised", "plain":
                Path(folder, name).unlink()
    holds(f"{mixed} texts were mixed without a raise", mixed > 0)
    how = "tuspy" if has_tuspy() else "requests by hand"
    print(f"{words.rounds} copies put back and raised: {told} clients told 404, all other texts right, by {how}")
    print(f"without a raise: {mixed} texts wrong")


if __name__ == "__main__":
    main()
