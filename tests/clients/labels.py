#!/usr/bin/env python3
"""Where the right label stands among those that `gateway labels` prints.

    python3 tests/clients/labels.py FOLDER --indexes DIR [--program PATH] [--each N]

FOLDER has Debian's packages manpages-fr, manpages-es, hunspell-el, -he, -ar, -lt and -vi, unpacked (`dpkg -x`), on
which the rule wasn't made; the manual pages of the machine itself stand for Russian, Japanese, Polish and Turkish. Of
each encoding N texts (ten) of 1, 5 and 100 KB are made by Python's codecs, without the characters that it lacks. For
each encoding it prints how often the right label, or one that gives the same text, stands first, and how often among
the first three. Then it tries what the command has to say of a file of ASCII, of an unfinished character behind the
first MiB, of a folder without files and of one that isn't there, and measures the time and the memory of a long text.
"""

import argparse
import gzip
import json
import resource
import subprocess
import time
import unicodedata
from pathlib import Path

from harness import ENCODINGS, ROOT, holds, same

PAGES = Path("/usr/share/man")
SIZES = {"1 KB": 1_000, "5 KB": 5_000, "100 KB": 100_000}
LANGUAGES = {
    "fr": ["windows-1252", "iso-8859-15", "macintosh", "utf-8"],
    "es": ["windows-1252", "iso-8859-15", "macintosh"],
    "ru": ["windows-1251", "koi8-r", "ibm866", "iso-8859-5", "utf-16le"],
    "ja": ["shift_jis", "euc-jp", "iso-2022-jp", "utf-16be"],
    "pl": ["windows-1250", "iso-8859-2"],
    "tr": ["windows-1254"],
    "el": ["windows-1253"],
    "he": ["windows-1255"],
    "ar": ["windows-1256"],
    "lt": ["windows-1257"],
    "vi": ["windows-1258"],
}
DICTIONARIES = {
    "el": ("el_GR", "iso8859_7"),
    "he": ("he_IL", "utf-8"),
    "ar": ("ar", "utf-8"),
    "lt": ("lt_LT", "iso8859_13"),
    "vi": ("vi_VN", "utf-8"),
}
MEMORY = 16_000_000
TONES = "\u0300\u0309\u0303\u0301\u0323"
ASCII_LINE = "any of these: UTF-8, Shift_JIS, EUC-JP, ISO-2022-JP, IBM866, ISO-8859-2, "


def pages_of(folders):
    """The text of all manual pages in some folders, without comments."""
    files = sorted(it for folder in folders for it in folder.glob("man*/*.gz"))
    texts = [gzip.decompress(it.read_bytes()).decode("utf-8", "ignore") for it in files]
    return "\n".join(line for text in texts for line in text.splitlines() if not line.startswith(('.\\"', "'\\\"")))


def words_of(folder, name, codec):
    """The words of a dictionary, eight in a line."""
    text = (folder / f"{name}.dic").read_bytes().decode(codec, "ignore")
    words = [line.split("/")[0] for line in text.splitlines()[1:]]
    return "\n".join(" ".join(words[at : at + 8]) for at in range(0, len(words), 8))


def text_of(folder, language):
    """What there is in a language."""
    if language in DICTIONARIES:
        return words_of(folder / "usr/share/hunspell", *DICTIONARIES[language])
    return pages_of([folder / "usr/share/man" / language, PAGES / language])


def parts_of(text, size, count):
    """So many parts of a text, each of about so many characters, from places all over it."""
    step = max(1, (len(text) - size) // count)
    return [text[at * step : at * step + size] for at in range(count)]


def coded(text, label):
    """The bytes of a text, without the characters that its encoding lacks. Vietnamese writes each tone by itself."""
    if label == "windows-1258":
        split = [unicodedata.normalize("NFD", it) for it in text]
        bases = ["".join(it for it in parts if it not in TONES) for parts in split]
        tones = ["".join(it for it in parts if it in TONES) for parts in split]
        text = "".join(unicodedata.normalize("NFC", base) + tone for base, tone in zip(bases, tones))
    return text.encode(ENCODINGS[label], "ignore")


def with_little():
    """Leaves a program little memory."""
    resource.setrlimit(resource.RLIMIT_AS, (MEMORY, MEMORY))


class Gateway:
    """The program with a folder of index files."""

    def __init__(self, program, indexes):
        self.program, self.indexes = program, indexes

    def run(self, given, *words, indexes=None):
        words = [self.program, "labels", "--indexes", str(indexes or self.indexes), *words]
        return subprocess.run(words, input=given, capture_output=True, timeout=300, preexec_fn=with_little)

    def groups(self, given, *words):
        """The labels that share a text, in their order, and the line on what was read."""
        ran = self.run(given, "--json", *words)
        same("the status", ran.returncode, 0)
        *groups, read = map(json.loads, ran.stdout.decode().splitlines())
        return groups, read


def place_of(gateway, given, label):
    """The place of a label, from 0."""
    groups, read = gateway.groups(given)
    holds("no encoding is lacking", not read["lacking"])
    named = [[it.lower() for it in group["labels"]] for group in groups]
    same("how many labels there are", sum(map(len, named)), len(ENCODINGS))
    return next(place for place, names in enumerate(named) if label in names)


def measure(gateway, folder, each):
    """Prints a row for each language and encoding."""
    poor = set()
    for language, labels in LANGUAGES.items():
        text = text_of(folder, language)
        for label in labels:
            cells = []
            for name, size in SIZES.items():
                parts = [coded(it, label) for it in parts_of(text, size, each)]
                places = [place_of(gateway, it, label) for it in parts]
                first, near = sum(it == 0 for it in places), sum(it < 3 for it in places)
                cells.append(f"{name}: {first} first, {near} in three of {len(places)}")
                if near * 10 < len(places) * 9:
                    poor.add(label)
            print(f"{language} {label}:", "; ".join(cells), flush=True)
    print("below nine of ten in the first three:", ", ".join(sorted(poor)) or "none")


def try_words(gateway):
    """What else the command has to say."""
    ran = gateway.run(b"plain text\n")
    holds("ASCII is one line", ran.stdout.decode().startswith(ASCII_LINE) and ran.stdout.count(b"\n") == 1)
    whole = ("é" * 524_288).encode()
    cut = ("é" * 600_000).encode()
    groups, read = gateway.groups(b"a" + cut)
    same("what was read", (read["bytes"], read["whole"]), (1_048_576, False))
    same("an unfinished character isn't lost", (groups[0]["labels"][0], groups[0]["lost"]), ("UTF-8", 0))
    groups, read = gateway.groups(b"a" + cut, "--all")
    same("what was read of all", (read["bytes"], read["whole"]), (1_200_001, True))
    lost = next(it for it in gateway.groups(b"\xc3\xa9 \xc3")[0] if "UTF-8" in it["labels"])
    same("at the end it is", lost["lost"], 1)
    groups, read = gateway.groups(whole)
    same("a text of just so many bytes", (read["bytes"], read["whole"]), (1_048_576, False))
    ran = gateway.run(b"x", indexes="/nonexistent")
    same("no folder", (ran.returncode, ran.stderr.splitlines()[0][:9]), (2, b"refused: "))
    ran = gateway.run("é".encode(), indexes="/")
    holds("encodings that are lacking are named", b"not tried, since / lacks" in ran.stderr and b"KOI8-R" in ran.stderr)
    same("those that need none are tried", ran.stdout.decode().splitlines()[0], "UTF-8: 0 lost: é")


def spend(gateway, folder):
    """Prints the time that a long text takes, with few megabytes of memory however long it is."""
    text = text_of(folder, "fr").encode()
    for size, words in ((1_048_576, []), (16 * 1_048_576, ["--all"])):
        given = (text * (size // len(text) + 1))[:size]
        begun = time.monotonic()
        gateway.groups(given, *words)
        print(f"{size} bytes: {time.monotonic() - begun:.2f} s in at most {MEMORY} bytes", flush=True)


def main():
    parser = argparse.ArgumentParser(description=__doc__.partition("\n")[0])
    parser.add_argument("folder", type=Path)
    parser.add_argument("--indexes", required=True, type=Path)
    parser.add_argument("--program", default=ROOT / "crates/gateway/out/gateway")
    parser.add_argument("--each", type=int, default=10)
    words = parser.parse_args()
    gateway = Gateway(words.program, words.indexes)
    try_words(gateway)
    spend(gateway, words.folder)
    measure(gateway, words.folder, words.each)


if __name__ == "__main__":
    main()
