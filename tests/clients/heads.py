"""Heads at the edges: of each the replies' statuses, their X-Refusal, and whether the connection is closed.

usage: heads.py [--program PATH] [--indexes DIR] [--seed N]

Each case is one connection of a script in memory: an upload of five bytes is made, the bytes of the case come, and the
replies have to be those of its row, as docs/PROTOCOL.md has them.
"""

import base64
import subprocess

from harness import parser_of, same

# The fields that most requests have.
V = "Tus-Resumable: 1.0.0"
T = "Content-Type: application/offset+octet-stream"


def b64(value):
    return base64.b64encode(value).decode()


def h(*rows, end="\r\n"):
    return (end.join(rows) + end + end).encode("latin-1")


def patch(*rows):
    return h("PATCH /files/1 HTTP/1.1", V, T, *rows)


def post(*rows):
    return h("POST /files HTTP/1.1", V, *rows)


NEXT = h("HEAD /files/1 HTTP/1.1", V)
CASES = [
    (
        "two equal Content-Length",
        patch("Upload-Offset: 0", "Content-Length: 3", "Content-Length: 3") + b"abc",
        ["400/21c"],
    ),
    ("Content-Length as a list", patch("Upload-Offset: 0", "Content-Length: 3, 3") + b"abc", ["400/21c"]),
    ("Content-Length with a sign", patch("Upload-Offset: 0", "Content-Length: +3") + b"abc", ["400/21c"]),
    ("empty Content-Length", patch("Upload-Offset: 0", "Content-Length:") + b"abc", ["400/21c"]),
    ("Content-Length of 19 digits", patch("Upload-Offset: 0", "Content-Length: 0000000000000000003"), ["400/21c"]),
    ("Content-Length of 18 digits", patch("Upload-Offset: 0", "Content-Length: 000000000000000003") + b"abc", ["204"]),
    ("largest Content-Length", patch("Upload-Offset: 0", "Content-Length: 999999999999999999"), ["413/10"]),
    (
        "largest offset and length",
        patch("Upload-Offset: 999999999999999999", "Content-Length: 999999999999999999"),
        ["409/9"],
    ),
    (
        "coding in odd case",
        patch("Upload-Offset: 0", "tRANSFER-eNCODING: Identity", "Content-Length: 3") + b"abc",
        ["501/20c"],
    ),
    (
        "coding beside two lengths",
        patch("Content-Length: 1", "Content-Length: 2", "Transfer-Encoding: x", "Transfer-Encoding: y"),
        ["501/20c"],
    ),
    ("coding with a blank before the colon", patch("Upload-Offset: 0", "Transfer-Encoding : chunked"), ["400/18c"]),
    ("empty coding", patch("Upload-Offset: 0", "Transfer-Encoding:"), ["501/20c"]),
    ("folded line", patch("Upload-Offset: 0", "X: a", " b"), ["400/18c"]),
    ("blank before the first name", h("HEAD /files/1 HTTP/1.1", " " + V), ["400/18c"]),
    ("bare CR in a value", h("HEAD /files/1 HTTP/1.1", V, "X: a\rContent-Length: 5"), ["400/18c"]),
    ("NUL in a value", h("HEAD /files/1 HTTP/1.1", V, "X: a\0b"), ["400/18c"]),
    ("NUL in the target", h("HEAD /files/1\0 HTTP/1.1", V), ["400/18c"]),
    ("no name", h("HEAD /files/1 HTTP/1.1", V, ": x"), ["400/18c"]),
    ("two blanks in the request line", h("HEAD  /files/1 HTTP/1.1", V), ["400/18c"]),
    ("HTTP/1.2", h("HEAD /files/1 HTTP/1.2", V), ["400/18c"]),
    ("HTTP/2.0", h("HEAD /files/1 HTTP/2.0", V), ["400/18c"]),
    ("no version", h("GET /files/1"), ["400/18c"]),
    ("absolute form", h("GET http://h/files/1 HTTP/1.1"), ["404/23"]),
    ("asterisk", h("OPTIONS * HTTP/1.1"), ["404/23"]),
    ("path with a slash behind", h("GET /files/1/ HTTP/1.1"), ["404/23"]),
    ("path without a number", h("GET /files/ HTTP/1.1"), ["404/23"]),
    ("two slashes", h("GET //files/1 HTTP/1.1"), ["404/23"]),
    ("leading zero", h("GET /files/01 HTTP/1.1"), ["404/23"]),
    ("escaped digit", h("GET /files/%31 HTTP/1.1"), ["404/23"]),
    ("19 digits", h("GET /files/1000000000000000000 HTTP/1.1"), ["404/23"]),
    ("18 digits", h("GET /files/999999999999999999 HTTP/1.1"), ["404/8"]),
    ("query", h("GET /files/1?a?b HTTP/1.1"), ["200"]),
    ("lines with LF alone, and empty lines before", b"\n\r\n\n" + h("HEAD /files/1 HTTP/1.1", V, end="\n"), ["200"]),
    ("HTTP/1.0 with keep-alive", h("GET /files/1 HTTP/1.0", "Connection: keep-alive"), ["200c"]),
    ("close in a second Connection", h("GET /files/1 HTTP/1.1", "Connection: x", "Connection: , cLoSe ,"), ["200c"]),
    ("closed is not close", h("GET /files/1 HTTP/1.1", "Connection: closed"), ["200"]),
    ("HEAD with a body", h("HEAD /files/1 HTTP/1.1", V, "Content-Length: 5") + b"a\r\n\r\n" + NEXT, ["200", "200"]),
    ("GET with a body", h("GET /files/1 HTTP/1.1", "Content-Length: 5") + b"a\r\n\r\n" + NEXT, ["200", "200"]),
    (
        "DELETE with a body",
        h("DELETE /files/1 HTTP/1.1", V, "Content-Length: 4") + b"\r\n\r\n" + NEXT,
        ["204", "404/8"],
    ),
    ("OPTIONS with a body", h("OPTIONS /files HTTP/1.1", "Content-Length: 4") + b"\r\n\r\n" + NEXT, ["204", "200"]),
    ("POST with a body", post("Upload-Length: 1", "Content-Length: 4") + b"\r\n\r\n" + NEXT, ["400/26", "200"]),
    (
        "Expect and a good PATCH",
        patch("Upload-Offset: 0", "Content-Length: 5", "Expect: 100-CONTINUE") + b"abcde",
        ["100", "204"],
    ),
    (
        "Expect and a wrong offset",
        patch("Upload-Offset: 1", "Content-Length: 5", "Expect: 100-continue") + b"abcde",
        ["409/9c"],
    ),
    ("Expect and no body", patch("Upload-Offset: 0", "Expect: 100-continue") + NEXT, ["204", "200"]),
    (
        "Expect and GET with a body",
        h("GET /files/1 HTTP/1.1", "Content-Length: 1", "Expect: 100-continue") + b"a",
        ["200c"],
    ),
    (
        "Expect over HTTP/1.0",
        h("PATCH /files/1 HTTP/1.0", V, T, "Upload-Offset: 0", "Content-Length: 5", "Expect: 100-continue") + b"abcde",
        ["204c"],
    ),
    (
        "override by GET to DELETE",
        h("GET /files/1 HTTP/1.1", V, "X-HTTP-Method-Override: DELETE") + NEXT,
        ["204", "404/8"],
    ),
    ("override to DELETE without a version", h("GET /files/1 HTTP/1.1", "X-HTTP-Method-Override: DELETE"), ["412/22"]),
    ("override in lower case", h("POST /files/1 HTTP/1.1", V, "X-HTTP-Method-Override: head"), ["405/24"]),
    (
        "two overrides",
        h("POST /files/1 HTTP/1.1", V, "X-HTTP-Method-Override: HEAD", "X-HTTP-Method-Override: DELETE") + NEXT,
        ["200", "200"],
    ),
    ("empty override", h("GET /files/1 HTTP/1.1", V, "X-HTTP-Method-Override:"), ["405/24"]),
    (
        "HEAD line, overridden to PATCH",
        h("HEAD /files/1 HTTP/1.1", V, T, "X-HTTP-Method-Override: PATCH", "Upload-Offset: 0",
        "Content-Length: 2") + b"ab" + NEXT,
        ["204", "200"],
    ),
    ("version twice", h("HEAD /files/1 HTTP/1.1", V, V), ["412/22"]),
    (
        "media type in capitals with a parameter",
        h("PATCH /files/1 HTTP/1.1", V, "Content-Type: APPLICATION/OFFSET+OCTET-STREAM;x=y", "Upload-Offset: 0"),
        ["204"],
    ),
    (
        "media type with a blank before the semicolon",
        h("PATCH /files/1 HTTP/1.1", V, T + " ;x=y", "Upload-Offset: 0"),
        ["415/25"],
    ),
    ("offset with leading zeros", patch("Upload-Offset: 000", "Content-Length: 1") + b"a", ["204"]),
    ("offset twice", patch("Upload-Offset: 0", "Upload-Offset: 0"), ["400/26"]),
    ("PATCH with another length", patch("Upload-Offset: 0", "Upload-Length: 6"), ["400/34"]),
    ("PATCH with the same length", patch("Upload-Offset: 0", "Upload-Length: 5"), ["204"]),
    ("PATCH with no length", patch("Upload-Offset: 0", "Upload-Length:"), ["400/26"]),
    ("PATCH with a length over the limit", patch("Upload-Offset: 0", "Upload-Length: 1073741825"), ["413/12"]),
    ("deferral of 0", post("Upload-Defer-Length: 0"), ["400/26"]),
    ("deferral of 01", post("Upload-Defer-Length: 01"), ["400/26"]),
    ("deferral and length", post("Upload-Defer-Length: 1", "Upload-Length: 1"), ["400/26"]),
    ("bad deferral and length", post("Upload-Defer-Length: 0", "Upload-Length: 1"), ["400/26"]),
    ("deferral twice", post("Upload-Defer-Length: 1", "Upload-Defer-Length: 1"), ["400/26"]),
    ("length at the limit", post("Upload-Length: 1073741824"), ["201"]),
    ("length over the limit", post("Upload-Length: 1073741825"), ["413/12"]),
    (
        "label with blanks and in capitals",
        post("Upload-Length: 1", "Upload-Metadata: from " + b64(b"\t UTF-8\r\n")),
        ["201"],
    ),
    ("label with a vertical tab", post("Upload-Length: 1", "Upload-Metadata: from " + b64(b"\vutf-8")), ["400/28"]),
    ("empty label", post("Upload-Length: 1", "Upload-Metadata: from"), ["400/28"]),
    ("mode in capitals", post("Upload-Length: 1", "Upload-Metadata: mode " + b64(b"HTML")), ["400/28"]),
    ("key twice", post("Upload-Length: 1", "Upload-Metadata: a,a"), ["400/27"]),
    ("keys that differ in case", post("Upload-Length: 1", "Upload-Metadata: a,A"), ["201"]),
    ("two blanks in a pair", post("Upload-Length: 1", "Upload-Metadata: a  YQ=="), ["400/27"]),
    ("blanks round pairs", post("Upload-Length: 1", "Upload-Metadata:  a YQ==  ,  b  "), ["201"]),
    ("comma at the end", post("Upload-Length: 1", "Upload-Metadata: a,"), ["400/27"]),
    ("comma alone", post("Upload-Length: 1", "Upload-Metadata: ,"), ["400/27"]),
    ("tab in a pair", post("Upload-Length: 1", "Upload-Metadata: a,\tb"), ["400/27"]),
    ("Base64 without padding", post("Upload-Length: 1", "Upload-Metadata: a YQ"), ["400/27"]),
    ("Base64 with stray bits", post("Upload-Length: 1", "Upload-Metadata: a YR=="), ["400/27"]),
    ("metadata twice", post("Upload-Length: 1", "Upload-Metadata: a", "Upload-Metadata: b"), ["400/26"]),
    ("1,536 bytes of metadata", post("Upload-Length: 1", "Upload-Metadata: " + "k" * 1536), ["201"]),
    ("1,537 bytes of metadata", post("Upload-Length: 1", "Upload-Metadata: " + "k" * 1537), ["400/27"]),
    ("a byte above 7E in metadata", post("Upload-Length: 1", "Upload-Metadata: \xe9"), ["400/27"]),
    ("64 lines", h("HEAD /files/1 HTTP/1.1", V, *["X: y"] * 63), ["200"]),
    ("65 lines", h("HEAD /files/1 HTTP/1.1", V, *["X: y"] * 64), ["431/19c"]),
    (
        "head of 8,192 bytes",
        h("HEAD /files/1 HTTP/1.1", V, "X: " + "y" * (8192 - len(h("HEAD /files/1 HTTP/1.1", V, "X: ")))),
        ["200"],
    ),
    (
        "head of 8,193 bytes",
        h("HEAD /files/1 HTTP/1.1", V, "X: " + "y" * (8193 - len(h("HEAD /files/1 HTTP/1.1", V, "X: ")))),
        ["431/19c"],
    ),
    ("8,192 empty lines", b"\n" * 8192, ["431/19c"]),
    (
        "a PATCH without Content-Length, and what seems its body",
        patch("Upload-Offset: 0") + b"abcde\r\n\r\n",
        ["204", "400/18c"],
    ),
]


def script_of(data):
    """A script with an upload, and the bytes of a case on another connection."""
    return f"open 0\ncame 0 {post('Upload-Length: 5').hex()}\ncut 0\nopen 1\ncame 1 {data.hex()}\n".encode()


def told(out):
    """The replies on connection 1, as '400/21c': status, X-Refusal, and c where it was closed then."""
    found, at = [], 0
    while at < len(out):
        end = out.index(b"\n", at)
        words, at = out[at:end].decode().split(), end + 1
        if words[0] == "<":
            block, at = out[at : at + int(words[2])], at + int(words[2]) + 1
            found += [shown(part) for part in block.split(b"HTTP/1.1 ")[1:] if words[1] == "1"]
        elif words == ["x", "1"] and found:
            found[-1] += "c"
    return found


def shown(reply):
    number = reply.partition(b"X-Refusal: ")[2].partition(b"\r")[0].decode()
    return reply[:3].decode() + (f"/{number}" if number else "")


def main():
    program = parser_of(__doc__).parse_args().program
    for name, data, wanted in CASES:
        run = subprocess.run([program, "script", "-"], input=script_of(data), capture_output=True, check=True)
        same(name, told(run.stdout), wanted)
    print(f"{len(CASES)} heads at the edges, each answered as asked")


if __name__ == "__main__":
    main()
