"""Deletions as clients ask for them: by curl, by requests beside tuspy, and while others still send or read."""

import io
import socket
import subprocess
from pathlib import Path

from harness import OCTETS, TUS, Client, Sample, Server, Wrong, curl, fields, format_spool, has_tuspy, header, same

BLOCKS = 4096
ALL = BLOCKS * 4096
PIECE = 1 << 20
# What curl ends with where fewer bytes came than `Content-Length` says.
CUT_SHORT = 18


def run(program, folder, indexes):
    """Each trial over one spool of its own: which were wrong."""
    spool = Path(folder, "deletions")
    format_spool(program, spool, BLOCKS, indexes)
    server = Server(program, spool)
    trials = [by_curl, while_patched, while_read, filled_again] + ([by_requests] if has_tuspy() else [])
    try:
        wrong = [line for trial in trials for line in tried(trial, server)]
    finally:
        server.kill()
    print(f"deletions: {len(trials)} trials, {len(wrong)} wrong", flush=True)
    return wrong


def tried(trial, server):
    """What was wrong in a trial, if something was."""
    client = Client(server.port)
    try:
        trial(server, client)
    except (Wrong, ValueError, OSError, subprocess.SubprocessError) as error:
        return [f"deletions, {trial.__name__}: {error}"]
    finally:
        client.close()
    return []


def by_curl(server, client):
    """A deletion without the version is refused; by DELETE, and by POST that stands for it, the upload is gone."""
    asked = curl("-i", "-X", "OPTIONS", f"http://127.0.0.1:{server.port}/files").decode()
    same("the extensions", header(asked, "Tus-Extension"), "creation,creation-defer-length,termination")
    for asks_for_it in ["-X", "DELETE"], ["-X", "POST", "-H", "X-HTTP-Method-Override: DELETE"]:
        path = uploaded(client, b"a letter")
        url = f"http://127.0.0.1:{server.port}{path}"
        same("without the version", status(*asks_for_it, url), 412)
        same("the text", curl(url), b"a letter")
        reply = curl("-i", *asks_for_it, *fields(TUS), url).decode()
        same("the reply", reply.splitlines()[0].split()[1], "204")
        same("its version", header(reply, "Tus-Resumable"), "1.0.0")
        same("HEAD", status("-I", *fields(TUS), url), 404)
        same("GET", status(url), 404)
        same("PATCH", status("-X", "PATCH", "-H", "Upload-Offset: 8", *fields(OCTETS), "--data-binary", "@-", url), 404)
        same("a second deletion", status(*asks_for_it, *fields(TUS), url), 404)
        is_next(client, path)


def by_requests(server, client):
    """The way of a client of tuspy, which leaves deletions to requests."""
    import requests
    from tusclient.client import TusClient
    from tusclient.exceptions import TusCommunicationError

    tus = TusClient(f"http://127.0.0.1:{server.port}/files")
    first = tus.uploader(file_stream=io.BytesIO(b"a letter"), chunk_size=5)
    first.upload_chunk()
    same("DELETE", requests.delete(first.url, headers=first.get_headers(), timeout=60).status_code, 204)
    same("GET", requests.get(first.url, timeout=60).status_code, 404)
    try:
        tus.uploader(file_stream=io.BytesIO(b"a letter"), chunk_size=5, url=first.url)
    except TusCommunicationError as error:
        same("going on", error.status_code, 404)
    else:
        raise Wrong("goes on with a deleted upload")
    is_next(client, first.url[first.url.index("/files") :])


def while_patched(server, client):
    """A PATCH that is under way over another connection takes its body to the end, and is answered 404 then."""
    path = client.create(Sample("utf-8", b"a letter", b"a letter"))
    asked = {**OCTETS, "Upload-Offset": "0", "Content-Length": "8", "Expect": "100-continue"}
    lines = [f"PATCH {path} HTTP/1.1", *(f"{name}: {value}" for name, value in asked.items()), "", ""]
    with socket.create_connection(("127.0.0.1", server.port), timeout=60) as raw, raw.makefile("rb") as replies:
        raw.sendall("\r\n".join(lines).encode())
        same("under way", head(replies)[0], "HTTP/1.1 100 Continue")
        raw.sendall(b"a let")
        client.delete(path)
        same("HEAD", client.is_gone(path), True)
        raw.sendall(b"ter" + f"HEAD {path} HTTP/1.1\r\nTus-Resumable: 1.0.0\r\n\r\n".encode())
        for what in "its end", "HEAD on its connection":
            reply = head(replies)
            same(what, (reply[0].split()[1], header("\n".join(reply), "X-Refusal")), ("404", "8"))
    is_next(client, path)


def while_read(server, client):
    """A GET that is under way is cut: curl tells so, and what it read is a prefix of the text, though another text
    has all its blocks then."""
    text = lines_of("old")
    path = uploaded(client, text)
    url = f"http://127.0.0.1:{server.port}{path}"
    with subprocess.Popen(["curl", "-s", "--max-time", "60", url], stdout=subprocess.PIPE) as reader:
        read = reader.stdout.read(PIECE)
        client.delete(path)
        other = uploaded(client, lines_of("new"))
        read += reader.communicate(timeout=60)[0]
    same("curl's status", reader.returncode, CUT_SHORT)
    same("what was read is a prefix of the text", len(read) < len(text) and text.startswith(read), True)
    same("the other text", client.text(other) == lines_of("new"), True)
    client.delete(other)


def filled_again(_server, client):
    """Each of three texts takes all blocks of the spool, which the deletion of the one before left free."""
    for word in "one", "two", "three":
        path = uploaded(client, lines_of(word))
        more = client.create(Sample("utf-8", b"a", b"a"))
        same("a byte more", client.status("PATCH", more, {**OCTETS, "Upload-Offset": "0"}, b"a"), 507)
        same("the text", client.text(path) == lines_of(word), True)
        client.delete(path)
        same("the offset then", client.patch(more, 0, b"a"), 1)
        same("its text", client.text(more), b"a")
        client.delete(more)


def uploaded(client, text):
    """The path of a whole upload, of UTF-8."""
    path = client.create(Sample("utf-8", text, text))
    for at in range(0, len(text), PIECE):
        client.patch(path, at, text[at : at + PIECE])
    return path


def lines_of(word):
    """A text as long as all blocks, of numbered lines."""
    line = len(f"{0:07} {word}\n")
    return "".join(f"{place:07} {word}\n" for place in range(ALL // line + 1)).encode()[:ALL]


def is_next(client, path):
    """The upload made after a deletion has the next number, and none of the deleted one's text."""
    made = client.create(Sample("utf-8", b"a", b"a"))
    same("the next number", int(made.rpartition("/")[2]), int(path.rpartition("/")[2]) + 1)
    same("its text", client.text(made), b"")
    client.delete(made)


def status(*words):
    """The status that curl was told."""
    return int(curl("-o", "/dev/null", "-w", "%{http_code}", *words))


def head(replies):
    """The lines of a reply's head."""
    lines = []
    while (line := replies.readline()) != b"\r\n":
        if not line:
            raise Wrong(f"ended after {lines}")
        lines.append(line.decode().rstrip())
    return lines
