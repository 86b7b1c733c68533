#!/usr/bin/env python3
"""Real clients against a gateway: curl, tuspy, headless chromium, and 16 clients at once with cuts and resumes, over
all encodings; also streams, whose length comes last. Each text is compared with what Python's codecs decode and encode
the same bytes to. Then deletions, by curl and by requests, also of uploads that others send or read.

    python3 tests/clients/clients.py [--program PATH] [--indexes DIR] [--clients N] [--rounds N] [--seed N] [--at-once]

It formats two spools in a temporary folder and serves them at ports of 127.0.0.1. tuspy and chromium are left out where
they aren't there. The status is 0 where every text, every offset and every reply to a deletion was right: a PATCH that
was answered with 204 takes all its bytes; after a cut the offset is no less than what was told before and no more than
what was sent, and over all cuts some bytes were kept.
"""

import io
import subprocess
import tempfile
from concurrent.futures import ThreadPoolExecutor
from http.client import HTTPException
from pathlib import Path

import browser
import deletions
from harness import ENCODINGS, OCTETS, TUS, Client, Sample, Server, Wrong, curl, declaring, fields, format_spool
from harness import has_tuspy, header, holds, indexes_in, parser_of, random_sample, rng_of, same

BLOCKS = 8192
MOST_CUTS = 40
MOST_UPLOADS = 400


def cut_in_two(rng, data):
    place = rng.randrange(len(data))
    return data[:place], data[place:]


def made_by_curl(server, sample, length):
    """The URL of an upload that is made with this header of its length."""
    base = f"http://127.0.0.1:{server.port}"
    wanted = {**TUS, **length, "Upload-Metadata": sample.metadata()}
    made = curl("-i", "-X", "POST", *fields(wanted), f"{base}/files").decode()
    return base + header(made, "Location")


def patch_by_curl(url, offset, piece, length=None):
    """The offset after a piece, with which the upload's length may be declared."""
    wanted = {**OCTETS, "Upload-Offset": offset, **declaring(length)}
    reply = curl("-i", "-X", "PATCH", *fields(wanted), "--data-binary", "@-", url, body=piece).decode()
    reached = int(header(reply, "Upload-Offset"))
    same(f"{url}: the offset after {len(piece)} bytes at {offset}", reached, offset + len(piece))
    return reached


def by_curl(server, sample, rng):
    """An upload in two pieces, whose second begins where HEAD says."""
    url = made_by_curl(server, sample, {"Upload-Length": len(sample.data)})
    first, _rest = cut_in_two(rng, sample.data)
    reached = patch_by_curl(url, 0, first)
    offset = int(header(curl("-I", *fields(TUS), url).decode(), "Upload-Offset"))
    same(f"{url}: the offset that HEAD says", offset, reached)
    patch_by_curl(url, offset, sample.data[offset:])
    return curl(url)


def stream_by_curl(server, sample, rng):
    """A stream in pieces, whose length comes with the last one or after it."""
    url, stream, offset = made_by_curl(server, sample, {"Upload-Defer-Length": 1}), io.BytesIO(sample.data), 0
    size, with_last = rng.randrange(1, 4000), rng.randrange(2) == 0
    while piece := stream.read(size):
        end = offset + len(piece)
        offset = patch_by_curl(url, offset, piece, end if with_last and end == len(sample.data) else None)
    if not with_last:
        end_stream(url, sample)
    return curl(url)


def end_stream(url, sample):
    """Declares the length of a stream whose bytes are all there."""
    head = curl("-I", *fields(TUS), url).decode()
    if header(head, "Upload-Defer-Length") != "1":
        raise Wrong(f"{url}: its length is known")
    patch_by_curl(url, int(header(head, "Upload-Offset")), b"", len(sample.data))


def by_tuspy(server, sample):
    """An upload whose second half another uploader resumes by its URL."""
    from tusclient.client import TusClient

    tus = TusClient(f"http://127.0.0.1:{server.port}/files")
    size = max(1, len(sample.data) // 3)
    metadata = {"from": sample.label, "to": sample.to}
    first = tus.uploader(file_stream=io.BytesIO(sample.data), chunk_size=size, metadata=metadata)
    first.upload_chunk()
    again = tus.uploader(file_stream=io.BytesIO(sample.data), chunk_size=size, url=first.url)
    again.upload()
    return curl(again.url)


def stream_by_tuspy(server, sample):
    """A stream that tuspy sends to a URL made by curl, which declares the length at last."""
    from tusclient.client import TusClient

    url = made_by_curl(server, sample, {"Upload-Defer-Length": 1})
    tus = TusClient(f"http://127.0.0.1:{server.port}/files")
    size = max(1, len(sample.data) // 3)
    tus.uploader(file_stream=io.BytesIO(sample.data), chunk_size=size, url=url).upload()
    end_stream(url, sample)
    return curl(url)


def by_chromium(server, folder, seed):
    """An upload in each encoding by a browser: which were wrong."""
    client, sample = Client(server.port), Sample("utf-8", b"a page", b"a page")
    path = client.create(sample)
    client.patch(path, 0, sample.data)
    client.close()
    page = browser.Browser(folder, f"http://127.0.0.1:{server.port}{path}")
    try:
        return one_by_one(
            "chromium",
            lambda sample, rng: page.upload(sample.data, rng.randrange(len(sample.data)), sample.metadata()),
            seed,
        )
    finally:
        page.close()


class Pieces:
    """An upload in pieces of any length, some of whose bodies are cut: then HEAD says where to go on. What is there at
    any moment is a prefix of the text. The length of some comes with any of the pieces, or after them."""

    def __init__(self, client, sample, rng):
        self.client, self.sample, self.rng = client, sample, rng
        self.deferred, self.whole = rng.randrange(3) == 0, len(sample.data)
        self.path = client.create(sample, self.deferred)
        self.offset = self.sent = self.pieces = self.cuts = self.kept = 0

    def send(self):
        """Sends all of it: the text."""
        while self.offset < self.whole:
            self.one_more()
            self.pieces += 1
            if self.rng.randrange(4) == 0:
                text = self.client.text(self.path)
                holds(f"{self.path}: not a prefix of its text", self.sample.text.startswith(text))
        if self.deferred:
            self.client.patch(self.path, self.whole, b"", self.whole)
        return self.client.text(self.path)

    def one_more(self):
        """One piece, whole or cut."""
        rng = self.rng
        size = rng.choice([rng.randrange(1, 8), rng.randrange(1, 1500), self.whole])
        piece = self.sample.data[self.offset : self.offset + size]
        length = self.whole if self.deferred and rng.randrange(8) == 0 else None
        if self.cuts < MOST_CUTS and rng.randrange(3) == 0:
            self.cut(piece, length)
            return
        self.sent = max(self.sent, self.offset + len(piece))
        self.offset = self.client.patch(self.path, self.offset, piece, length)
        self.is_in_reach(self.offset)

    def cut(self, piece, length):
        """A piece of which only the first bytes are sent. (What was sent before may come only now.)"""
        sent, reset = piece[: self.rng.randrange(len(piece))], self.rng.randrange(2) == 0
        self.client.cut(self.path, self.offset, sent, count=len(piece), reset=reset, length=length)
        self.sent = max(self.sent, self.offset + len(sent))
        offset = self.client.offset(self.path)
        self.is_in_reach(offset)
        self.cuts, self.kept, self.offset = self.cuts + 1, self.kept + offset - self.offset, offset

    def is_in_reach(self, offset):
        """An offset is no less than what was told before, and no more than what was sent."""
        holds(f"{self.path}: {offset} after {self.offset}, {self.sent} sent", self.offset <= offset <= self.sent)


def at_once(server, place, labels, seed):
    """The uploads of one of the clients that work at once: how many uploads, pieces, cuts and bytes kept over cuts, and
    which were wrong."""
    rng, client, sums, wrong = rng_of(seed, "at once", place), Client(server.port), [0, 0, 0, 0], []
    for label in labels:
        sample = random_sample(rng, label)
        try:
            pieces = Pieces(client, sample, rng)
            same("the text", pieces.send() == sample.text, True)
            counts = [1, pieces.pieces, pieces.cuts, pieces.kept]
            sums = [a + b for a, b in zip(sums, counts)]
        except (Wrong, OSError, HTTPException) as error:
            wrong.append(f"client {place}: {sample.label} to {sample.to}, {len(sample.data)} bytes: {error!r}")
            client.close()
    client.close()
    return sums, wrong


def one_by_one(name, upload, seed):
    """An upload in each encoding by a client of others: which were wrong."""
    rng, wrong = rng_of(seed, name), []
    for label in ENCODINGS:
        sample = random_sample(rng, label)
        try:
            same("the text", upload(sample, rng) == sample.text, True)
        except (Wrong, ValueError, OSError, subprocess.SubprocessError) as error:
            wrong.append(f"{name}: {sample.label} to {sample.to}, {len(sample.data)} bytes: {error}")
    print(f"{name}: {len(ENCODINGS)} uploads, {len(wrong)} wrong", flush=True)
    return wrong


def all_at_once(server, clients, rounds, seed):
    """So many clients, each with an upload in each encoding, as far as the spool has places: which were wrong."""
    rng = rng_of(seed, "labels")
    labels = [rng.sample(list(ENCODINGS) * rounds, len(ENCODINGS) * rounds) for _ in range(clients)]
    few = MOST_UPLOADS // clients
    with ThreadPoolExecutor(clients) as pool:
        done = list(pool.map(lambda place: at_once(server, place, labels[place][:few], seed), range(clients)))
    uploads, pieces, cuts, kept = [sum(parts) for parts in zip(*(sums for sums, _ in done))]
    wrong = [line for _, lines in done for line in lines]
    if not kept:
        wrong.append(f"{cuts} cuts, and no byte of any cut body was kept")
    print(f"{clients} at once: {uploads} uploads in {pieces} pieces, {cuts} cut, {kept} bytes of these kept,", end=" ")
    print(f"{len(wrong)} wrong", flush=True)
    return wrong


def run(server, folder, given):
    """All clients: which uploads were wrong."""
    if given.at_once:
        return all_at_once(server, given.clients, given.rounds, given.seed)
    wrong = one_by_one("curl", lambda sample, rng: by_curl(server, sample, rng), given.seed)
    wrong += one_by_one("streams by curl", lambda sample, rng: stream_by_curl(server, sample, rng), given.seed)
    if has_tuspy():
        wrong += one_by_one("tuspy", lambda sample, rng: by_tuspy(server, sample), given.seed)
        wrong += one_by_one("streams by tuspy", lambda sample, rng: stream_by_tuspy(server, sample), given.seed)
    else:
        print("tuspy: not there (Debian: python3-tuspy, and /usr/bin/python3)")
    if browser.program():
        wrong += by_chromium(server, folder, given.seed)
    else:
        print("chromium: not there")
    return wrong + all_at_once(server, given.clients, given.rounds, given.seed)


def main():
    words = parser_of(__doc__)
    words.add_argument("--clients", type=int, default=16, help="how many work at once (16)")
    words.add_argument("--rounds", type=int, default=1, help="uploads in each encoding for each of these (1)")
    words.add_argument("--at-once", action="store_true", help="only the clients that work at once")
    given = words.parse_args()
    with tempfile.TemporaryDirectory(ignore_cleanup_errors=True) as folder:
        indexes = indexes_in(folder, given.indexes)
        format_spool(given.program, Path(folder, "spool"), BLOCKS, indexes)
        server = Server(given.program, Path(folder, "spool"))
        try:
            wrong = run(server, folder, given)
        finally:
            server.kill()
        if not given.at_once:
            wrong += deletions.run(given.program, folder, indexes)
    print("\n".join(wrong) or "every text and every offset was right")
    return 1 if wrong else 0


if __name__ == "__main__":
    raise SystemExit(main())
