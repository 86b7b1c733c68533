"""One gateway behind nginx and behind Caddy: pages of other origins, slow senders, a password.

usage: fronts.py [--program PATH] [--indexes DIR] [--seed N]

The ports 8081, 8082, 8088 and 8090 have to be free. With packaging/nginx/wovelatsa-cors.conf a page of an origin that
it names uploads in two pieces, by curl's preflight and by chromium where it is there, and one of another origin can't.
`proxy_request_buffering off` keeps what came of a cut body, and slow senders take the gateway's places; with `on` it is
the other way about. Behind wovelatsa-browsers.conf an endpoint may end with a slash, and what a browser sends along
doesn't reach the gateway; behind wovelatsa-groups.conf who has a group's password uploads there and nowhere else, and
can't read or delete. Behind the lines of packaging/caddy, where Caddy is there, who has the password uploads, and a
refusal comes through while the body is still sent.
"""

import base64
import crypt
import http.client
import http.server
import socket
import tempfile
import threading
import time
from pathlib import Path

import browser
from harness import OCTETS, TUS, Client, format_spool, holds, indexes_in, memory, parser_of
from harness import curl, fields, random_sample, rng_of, same
from proxies import FRONT, LABELLED, NGINX, PORTS, Caddy, Instance, Nginx, has, lines_for

PAGES = 8090
# The page's origin that nginx is told, and one that it isn't: both are the same server.
NAMED, OTHER = f"http://127.0.0.1:{PAGES}", f"http://localhost:{PAGES}"
USER, PASSWORD = "archive", "a word"
LABEL = {"Upload-Metadata": LABELLED}
ORIGIN = "access-control-allow-origin"
# More than the gateway has places.
SENDERS = 20
# How long another client waits, and how long a proxy takes to pass on what came, in seconds. Slow senders give way to
# others two seconds after they began.
QUICK, SETTLES = 0.7, 1.0
# The bodies of PATCHes that are refused at their heads, in bytes, of how many of each Caddy may close the connection
# with the body unread, and how many there are of each.
REFUSED, TRIALS = ((1_000_000, 0), (5_000_000, 5)), 100
# The lines of packaging/nginx that are changed.
ORIGINS = r'"^https://(app|editors)\.example\.org$"'
LOCATIONS = "    location = /files {\n"
OFF, ON = "proxy_request_buffering off;", "proxy_request_buffering on;"
# What a browser sends along, more than a head of the gateway's may have, and a piece above what nginx takes of one.
ALONG, PIECE = {"Cookie": f"page={'c' * 5000}", "Authorization": f"Bearer {'t' * 4000}"}, 9_000_000

class Pages(http.server.SimpleHTTPRequestHandler):
    """An empty page at any path."""

    def do_GET(self):
        self.send_response(200)
        self.send_header("Content-Type", "text/html")
        self.end_headers()

    def log_message(self, *_words):
        pass


def reply_of(method, url, headers):
    """The status of curl's reply, and each header by its name in lower case."""
    head, lines = curl("-i", "-X", method, *fields(headers), url).decode().split("\r\n\r\n")[0], {}
    for line in head.splitlines()[1:]:
        name, _, value = line.partition(": ")
        before = lines.get(name.lower())
        lines[name.lower()] = f"{before}, {value}" if before else value
    return int(head.split()[1]), lines


def asks_before(url, origin):
    """What a browser asks before it sends a PATCH of a page's."""
    asked = {"Origin": origin, "Access-Control-Request-Method": "PATCH"}
    asked["Access-Control-Request-Headers"] = "content-type,tus-resumable,upload-offset"
    return reply_of("OPTIONS", url, asked)


def by_preflight():
    """nginx answers preflights, lets in the origin that it names alone, and shows a page the headers that it needs."""
    url = f"http://127.0.0.1:{FRONT}/files"
    status, lines = asks_before(url, NAMED)
    same("a preflight's status", status, 204)
    same("the origin that may", lines.get(ORIGIN), NAMED)
    holds("PATCH is allowed", "PATCH" in lines["access-control-allow-methods"])
    allowed = lines["access-control-allow-headers"].lower().split(", ")
    holds("its headers are allowed", {"content-type", "tus-resumable", "upload-offset"} <= set(allowed))
    holds("another origin isn't", ORIGIN not in asks_before(url, OTHER)[1])
    same("OPTIONS that is no preflight", reply_of("OPTIONS", url, {"Origin": NAMED})[1]["tus-version"], "1.0.0")
    for wanted, headers in ((201, {"Upload-Length": 0, **LABEL}), (400, LABEL)):
        status, lines = reply_of("POST", url, {**TUS, **headers, "Origin": NAMED})
        same("a POST's status and origin", (status, lines.get(ORIGIN)), (wanted, NAMED))
        shown = lines["access-control-expose-headers"].split(", ")
        holds("its headers are shown", {"Location", "Upload-Offset", "X-Refusal"} <= set(shown))


def by_chromium(rng, folder):
    """A page of the named origin uploads in two pieces, and one of another origin can't."""
    sample = random_sample(rng, "shift_jis")
    for origin, wanted in ((NAMED, sample.text), (OTHER, None)):
        shown = browser.Browser(f"{folder}/{origin == NAMED}", f"{origin}/")
        try:
            same(f"the text of a page of {origin}", text_of(shown, sample), wanted)
        finally:
            shown.close()


def text_of(shown, sample):
    """The text of an upload by a page, None where the browser refuses it."""
    try:
        return shown.upload(sample.data, len(sample.data) // 2, sample.metadata(), f"http://127.0.0.1:{FRONT}")
    except RuntimeError as error:
        holds(str(error), "Failed to fetch" in str(error))
        return None


def half_sent(path, sample, more=()):
    """A connection over which half of an upload's bytes came, and the rest is still to come."""
    headers = {**OCTETS, **dict(more), "Host": "front", "Upload-Offset": 0, "Content-Length": len(sample.data)}
    head = [f"PATCH {path} HTTP/1.1", *(f"{name}: {value}" for name, value in headers.items()), "", ""]
    raw = socket.create_connection(("127.0.0.1", FRONT), timeout=60)
    raw.sendall("\r\n".join(head).encode() + half_of(sample))
    return raw


def half_of(sample):
    return sample.data[: len(sample.data) // 2]


def served_quickly():
    """Whether the gateway answers one more client soon."""
    client = Client(PORTS["a"])
    client.connection.timeout = QUICK
    try:
        client.ask(204, "OPTIONS", "/files", {})
        return True
    except TimeoutError:
        return False
    finally:
        client.close()


def slow_senders(samples):
    """Senders that stop in the middle and are cut: whether another client is served meanwhile, and how many of their
    bytes are kept."""
    client = Client(FRONT)
    paths = [client.create(it) for it in samples]
    client.close()
    raws = [half_sent(path, it) for path, it in zip(paths, samples)]
    time.sleep(SETTLES)
    served = served_quickly()
    for it in raws:
        it.close()
    time.sleep(SETTLES)
    return served, sum(Client(FRONT).offset(it) for it in paths)


def by_slow_senders(nginx, rng):
    """Slow senders with each setting of nginx's: how many bytes are kept of those that are passed on at once."""
    samples = [random_sample(rng, "utf-8") for _ in range(SENDERS)]
    kept = sum(len(half_of(it)) for it in samples)
    same("with `off`: whether another is served, and what is kept", slow_senders(samples), (False, kept))
    nginx.change("snippets/wovelatsa-proxy.conf", OFF, ON)
    same("with `on`: whether another is served, and what is kept", slow_senders(samples), (True, 0))
    return kept


def behind_nginx(rng, folder):
    """Pages of other origins and slow senders, behind the lines for several gateways."""
    nginx = Nginx(folder / "nginx", lines_for(["a"]))
    pages = http.server.ThreadingHTTPServer(("127.0.0.1", PAGES), Pages)
    threading.Thread(target=pages.serve_forever, daemon=True).start()
    try:
        kept = by_slow_senders(nginx, rng)
        nginx.change("snippets/wovelatsa-cors.conf", ORIGINS, rf'"^{NAMED}$"')
        nginx.change("lines.conf", LOCATIONS, f"    include snippets/wovelatsa-cors.conf;\n{LOCATIONS}")
        by_preflight()
        if browser.program():
            by_chromium(rng, folder)
    finally:
        nginx.stop()
        pages.shutdown()
    print(f"behind nginx: preflights, chromium {browser.program() is not None}: pages of one origin may and of another")
    print(f"may not; {SENDERS} slow senders: {kept} bytes of cut bodies kept, or none and others served meanwhile")


def for_browsers(rng, folder):
    """An endpoint with a slash, what a browser sends along, and slow lines, behind the lines for browsers."""
    nginx = Nginx(folder / "browsers", (NGINX / "wovelatsa-browsers.conf").read_text())
    client, sample = Client(FRONT), random_sample(rng, "koi8-r")
    try:
        nginx.change("snippets/wovelatsa-cors.conf", ORIGINS, rf'"^{NAMED}$"')
        by_preflight()
        made = {**TUS, **ALONG, "Upload-Length": str(len(sample.data)), "Upload-Metadata": sample.metadata()}
        path = client.ask(201, "POST", "/files/", made)[0]["Location"]
        client.ask(204, "PATCH", path, {**OCTETS, **ALONG, "Upload-Offset": "0"}, sample.data)
        hidden = {**TUS, "X-HTTP-Method-Override": "DELETE"}
        same("the status of a DELETE by its other name", client.status("POST", path, hidden), 405)
        same("the text", Client(PORTS["a"]).text(path), sample.text)
        closed = [client.status(method, path, {**TUS, **ALONG}) for method in ("GET", "DELETE")]
        same("the statuses of GET and DELETE", closed, [403, 403])
        for metadata in ({}, {"Upload-Metadata": "filename ZnJvbQ==,fromage YQ=="}):
            unlabelled = client.status("POST", "/files", {**TUS, **metadata, "Upload-Length": "1"})
            same(f"the status of a POST with {metadata}", unlabelled, 400)
        same("the status of a piece that is too large", status_of_piece(path, PIECE), 413)
        samples = [random_sample(rng, "utf-8") for _ in range(SENDERS)]
        same("whether another is served beside slow ones, and what is kept", slow_senders(samples), (True, 0))
    finally:
        client.close()
        nginx.stop()
    print("for browsers: `/files/` is `/files`; no cookie, password or other method comes through; slow lines wait")


def status_of_piece(path, size):
    """The status of a PATCH of so many bytes, of which the head alone is sent."""
    with socket.create_connection(("127.0.0.1", FRONT), timeout=60) as raw:
        lines = [f"PATCH {path} HTTP/1.1", "Host: front", f"Content-Length: {size}", "", ""]
        raw.sendall("\r\n".join(lines).encode())
        return int(raw.recv(4096).split()[1])


def knows(group):
    """The password of a group."""
    return {"Authorization": f"Basic {base64.b64encode(f'{USER}:{PASSWORD} {group}'.encode()).decode()}"}


def for_groups(rng, folder):
    """Two groups, each with its password, path and gateway."""
    lines = (NGINX / "wovelatsa-groups.conf").read_text().replace("/etc/nginx", str(folder))
    for group in "ab":
        hashed = crypt.crypt(f"{PASSWORD} {group}", crypt.METHOD_SHA512)
        (folder / f"wovelatsa-{group}.users").write_text(f"{USER}:{hashed}\n")
    nginx = Nginx(folder / "groups", lines)
    try:
        for group, other in ("ab", "ba"):
            of_group(random_sample(rng, "koi8-r"), group, other)
        same("the status of a group that isn't there", Client(FRONT).status("POST", "/c/files", {**TUS, **LABEL}), 404)
    finally:
        nginx.stop()
    print("for groups: with a group's password uploads go to its own gateway; they are read and deleted there alone")


def of_group(sample, group, other):
    """Who has the group's password uploads, and neither reads nor deletes; who has another's doesn't."""
    client, length = Client(FRONT), str(len(sample.data))
    made = {**TUS, "Upload-Length": length, "Upload-Metadata": sample.metadata()}
    for who in ({}, knows(other)):
        same("the status without its password", client.status("POST", f"/{group}/files", {**made, **who}), 401)
    same("the status without a label", client.status("POST", f"/{group}/files", {**TUS, **knows(group)}), 400)
    path = client.ask(201, "POST", f"/{group}/files", {**made, **knows(group)})[0]["Location"]
    holds(f"{path} is of {group}", path.startswith(f"/{group}/files/"))
    client.ask(204, "PATCH", path, {**OCTETS, **knows(group), "Upload-Offset": "0"}, sample.data)
    same("the offset", client.ask(200, "HEAD", path, {**TUS, **knows(group)})[0]["Upload-Offset"], length)
    for method in ("GET", "DELETE"):
        same(f"the status of {method}", client.status(method, path, {**TUS, **knows(group)}), 403)
    hidden = {**TUS, **knows(group), "X-HTTP-Method-Override": "DELETE"}
    same("the status of a DELETE by its other name", client.status("POST", path, hidden), 405)
    own = path.removeprefix(f"/{group}")
    same("the text at the gateway itself", Client(PORTS[group]).text(own), sample.text)
    client.close()


def behind_caddy(rng, folder):
    """Who has the password uploads, and what came of a cut body is kept."""
    known = {"Authorization": f"Basic {base64.b64encode(f'{USER}:{PASSWORD}'.encode()).decode()}"}
    front = f"http://127.0.0.1:{FRONT}"
    sample = max((random_sample(rng, "koi8-r") for _ in range(9)), key=lambda it: len(it.data))
    made = {**TUS, "Upload-Length": len(sample.data), "Upload-Metadata": sample.metadata()}
    caddy = Caddy(folder, USER, PASSWORD)
    try:
        same("the status without a password", reply_of("POST", f"{front}/files", made)[0], 401)
        status, lines = reply_of("POST", f"{front}/files", {**made, **known})
        same("the status with it", status, 201)
        path = lines["location"]
        with half_sent(path, sample, known):
            time.sleep(SETTLES)
        time.sleep(SETTLES)
        half = len(half_of(sample))
        same("the bytes that are kept of a cut body", Client(PORTS["a"]).offset(path), half)
        rest = fields({**OCTETS, **known, "Upload-Offset": half})
        curl("-X", "PATCH", *rest, "--data-binary", "@-", front + path, body=sample.data[half:])
        same("the text", curl(*fields(known), front + path), sample.text)
        made = {**TUS, **known, "Upload-Length": 100_000_000}
        other = reply_of("POST", f"{front}/files", made)[1]["location"]
        for size, most in REFUSED:
            seen = [refusal_of(other, size, known) for _ in range(TRIALS)]
            holds(f"refusals of {size} bytes: {seen}", 502 not in seen and seen.count(409) >= TRIALS - most)
    finally:
        caddy.stop()
    print(f"behind Caddy: no upload without the password, {half} bytes of a cut body kept, the text right,")
    print(f"and {TRIALS} refusals of each size come through as 409")


def refusal_of(path, size, headers):
    """What a client sees of a PATCH at a wrong offset that sends its whole body before it reads."""
    connection = http.client.HTTPConnection("127.0.0.1", FRONT, timeout=60)
    try:
        connection.request("PATCH", path, body=b"a" * size, headers={**OCTETS, **headers, "Upload-Offset": "7"})
        return connection.getresponse().status
    except OSError as error:
        return type(error).__name__
    finally:
        connection.close()


def main():
    words = parser_of(__doc__).parse_args()
    rng = rng_of(words.seed, "fronts")
    with tempfile.TemporaryDirectory(dir=memory()) as place:
        folder = Path(place)
        indexes = indexes_in(folder, words.indexes)
        for name in ("spool", "other"):
            format_spool(words.program, folder / name, 2048, indexes)
        server = Instance(words.program, folder / "spool", PORTS["a"])
        other = Instance(words.program, folder / "other", PORTS["b"])
        try:
            if has("nginx"):
                behind_nginx(rng, folder)
                for_browsers(rng, folder)
                for_groups(rng, folder)
            if has("caddy"):
                behind_caddy(rng, folder)
        finally:
            server.kill()
            other.kill()


if __name__ == "__main__":
    main()
