"""Two gateways behind nginx and then four, by the lines of packaging/nginx as they are.

usage: instances.py [--program PATH] [--indexes DIR] [--seed N]

The ports 8081 to 8084 and 8088 have to be free. Uploads go to any gateway and are found again under its name, in pieces
and by tuspy where it is there; `Location` is right behind another name and port; one gateway is ended hard, the others
go on, and it comes back with all that was acknowledged; one is filled, so that it refuses new uploads, and taken out,
and its own stay reachable.
"""

import io
import tempfile
from pathlib import Path

from harness import ENCODINGS, TUS, Client, format_spool, has_tuspy, header, holds, indexes_in, memory, parser_of
from harness import curl, fields, random_sample, rng_of, same
from proxies import FRONT, LABELLED, PORTS, Instance, Nginx, instance_of, lines_for

UPLOADS = 42
BY_TUSPY = 8
SLOTS = 512


def upload(client, rng, sample):
    """Sends an upload in pieces: its path."""
    path = client.create(sample)
    offset = 0
    while offset < len(sample.data):
        piece = sample.data[offset : offset + rng.randrange(1, 4000)]
        offset = client.patch(path, offset, piece)
    return path


def send_all(rng, names):
    """Sends uploads in every encoding: what each path has to give."""
    client, sent = Client(FRONT), {}
    for n in range(UPLOADS):
        sample = random_sample(rng, list(ENCODINGS)[n % len(ENCODINGS)])
        sent[upload(client, rng, sample)] = sample.text
    same("instances that took uploads", {instance_of(it) for it in sent}, set(names))
    return sent


def all_there(sent, but=None):
    """Each text is what it has to be, of the instances that are up."""
    client = Client(FRONT)
    for path, text in sent.items():
        if instance_of(path) != but:
            same(f"the text of {path}", client.text(path), text)


def location_names_no_host(names):
    """Behind another name and port `Location` is a path still."""
    headers = {**TUS, "Upload-Length": "0", "Upload-Metadata": LABELLED, "Host": "texts.example.org:444"}
    reply = curl("-i", "-X", "POST", *fields(headers), f"http://127.0.0.1:{FRONT}/files").decode()
    place = header(reply.replace("\r", ""), "Location")
    holds(f"Location: {place}", place.startswith("/") and instance_of(place) in names)


def no_such_instance(client):
    """A name that no instance has is answered like an upload that isn't there."""
    for path in ("/e/files/1", "/files/1", "/a/files/999999", "/a/files", "/a/files/1/x"):
        same(f"HEAD {path}", client.status("HEAD", path, TUS), 404)


def by_tuspy(rng, sent):
    """Uploads of a stock client, in pieces."""
    from tusclient.client import TusClient

    front = f"http://127.0.0.1:{FRONT}"
    for _ in range(BY_TUSPY):
        sample = random_sample(rng, "shift_jis")
        metadata = {"from": sample.label, "to": sample.to}
        sender = TusClient(f"{front}/files").uploader(
            file_stream=io.BytesIO(sample.data), metadata=metadata, chunk_size=500
        )
        sender.upload()
        sent[sender.url.removeprefix(front)] = sample.text


def ends_and_comes_back(servers, sent):
    """One gateway is ended hard: its uploads are answered 502, the others' are there, and its own once it is back."""
    servers["a"].kill()
    all_there(sent, but="a")
    path = next(it for it in sent if instance_of(it) == "a")
    same(f"HEAD {path} while its instance is down", Client(FRONT).status("HEAD", path, TUS), 502)
    servers["a"].start()
    all_there(sent)


def filled(client):
    """Makes uploads at one gateway until it has no slot: those that were made."""
    headers, made = {**TUS, "Upload-Length": "0"}, []
    while len(made) < SLOTS:
        reply, _body = client.reply("POST", "/files", headers, None)
        if reply.status == 507:
            same("the refusal of a full gateway", reply.headers["X-Refusal"], "11")
            return made
        made.append(reply.headers["Location"])
    raise AssertionError("never full")


def taken_out(nginx, rng, sent, names):
    """A gateway that is full is taken out: new uploads go to the others, and those that it has stay."""
    full = filled(Client(PORTS["a"]))
    nginx.change("lines.conf", "    25% a;\n", "")
    client = Client(FRONT)
    paths = [upload(client, rng, random_sample(rng, "utf-8")) for _ in range(UPLOADS)]
    same("instances that took uploads then", {instance_of(it) for it in paths}, set(names) - {"a"})
    all_there(sent)
    client.delete(f"/a{full[0]}")
    holds("a deleted upload is gone", client.is_gone(f"/a{full[0]}"))
    return len(full)


def try_instances(words, rng, folder, names):
    """All of it over so many gateways."""
    folder.mkdir()
    indexes, servers = indexes_in(folder, words.indexes), {}
    for name in names:
        spool = folder / f"{name}.spool"
        format_spool(words.program, spool, 2048, indexes)
        servers[name] = Instance(words.program, spool, PORTS[name])
    nginx = Nginx(folder / "nginx", lines_for(names))
    try:
        sent = send_all(rng, names)
        all_there(sent)
        location_names_no_host(names)
        no_such_instance(Client(FRONT))
        if has_tuspy():
            by_tuspy(rng, sent)
        ends_and_comes_back(servers, sent)
        full = taken_out(nginx, rng, sent, names)
    finally:
        nginx.stop()
        for it in servers.values():
            it.kill()
    print(f"{len(names)} gateways behind nginx: {len(sent)} uploads, {BY_TUSPY if has_tuspy() else 0} of tuspy: every")
    print(f"text right, one ended and back, one full after {full} more and taken out for new uploads")


def main():
    words = parser_of(__doc__).parse_args()
    with tempfile.TemporaryDirectory(dir=memory()) as folder:
        for count in (2, 4):
            rng = rng_of(words.seed, "instances", str(count))
            try_instances(words, rng, Path(folder, str(count)), list(PORTS)[:count])


if __name__ == "__main__":
    main()
