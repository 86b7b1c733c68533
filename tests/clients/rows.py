"""Each row of docs/BENCHMARKS.md through a gateway, byte for byte as encoding_rs gives it.

usage: rows.py TEXTS PEER [--program PATH] [--indexes DIR] [--seed N]

TEXTS is a folder that tools/corpora or tools/hot-corpora made, and PEER tools/peer/target/release/peer. Of each row's
text at most 1 MB is sent, whole, in pieces of 4,096 and of 977 bytes, and read back.
"""

import re
import subprocess
import tempfile
from pathlib import Path

from harness import Client, Sample, Server, format_spool, indexes_in, parser_of, same

MOST = 1_000_000
CUTS = (MOST, 4096, 977)


def rows():
    """The rows of tools/ratios: the text's language, its encoding and the one that it is stored in."""
    ratios = Path(__file__).parents[2] / "tools" / "ratios"
    listed = re.search(r'ROWS = """(.*?)"""', ratios.read_text(), re.DOTALL)[1]
    for row in listed.replace("|", "\n").splitlines():
        label, language, to = [*row.split(), "utf-8"][:3]
        yield language, label, to


def begin_of(path, label, folder):
    """A file with the first part of a text, at most a million bytes, at a line's end where it has lines."""
    data = path.read_bytes()[:MOST]
    if len(data) == MOST and "utf-16" not in label:
        data = data[: data.rindex(b"\n") + 1] if b"\n" in data else data
    begin = Path(folder, "begin")
    begin.write_bytes(data)
    return begin, data


def sent(client, sample, cut):
    """What the gateway gives for a text that is sent in pieces. The upload is deleted."""
    path = client.create(sample)
    for at in range(0, len(sample.data), cut):
        client.patch(path, at, sample.data[at : at + cut])
    text = client.text(path)
    client.delete(path)
    return text


def main():
    read = parser_of(__doc__)
    read.add_argument("texts")
    read.add_argument("peer")
    words = read.parse_args()
    compared = 0
    with tempfile.TemporaryDirectory() as folder:
        spool = Path(folder, "spool")
        format_spool(words.program, spool, 4096, indexes_in(folder, words.indexes))
        server = Server(words.program, spool)
        client = Client(server.port)
        for language, label, to in rows():
            begin, data = begin_of(Path(words.texts, f"{language}.{label}"), label, folder)
            ran = subprocess.run([words.peer, "text", label, to, begin], capture_output=True, check=True)
            for cut in CUTS:
                text = sent(client, Sample(label, data, ran.stdout, to=to), cut)
                same(f"{language}, {label} to {to}, by {cut}", text == ran.stdout, True)
                compared += 1
        server.kill()
    print(f"{compared} texts, each byte for byte what encoding_rs gives")


if __name__ == "__main__":
    main()
