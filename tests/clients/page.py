"""The page that uploads (packaging/web), by a headless chromium through nginx with the sample for browsers.

usage: page.py [--program PATH] [--indexes DIR] [--seed N] [--pictures DIR] [--cases NAME..]

It needs chromium and nginx, and the ports 8081 and 8088. A text in each of the 21 encodings is sent under the label
that is chosen by its lines, and the stored text compared byte for byte; so is every other one. In between: a piece that
ends within a character, the gateway killed and started again, a reload, a browser that was ended, two files at once,
another client that is faster, an upload that is gone, a spool that is full, a character that the encoding lacks, a
wrong label seen beforehand and seen at the end, a file that has changed, a proxy that forbids reading, the keyboard
alone. `edges.py` has what goes wrong elsewhere: a page to sign in, a password, a text that stops coming, a silent
server, a browser's memory that is broken or full, files of one name, no digests, two windows, twelve files over a
slow line, six under kills, clean-ups beside clients, a spool that is put back from a copy, files that are too large.
Each state fits a window of 360 pixels and has no fault of the page's policy; `--pictures` keeps a picture of each, wide
and narrow. Without chromium or nginx nothing is tried. What of the page needs no document is tried by `node --test
tests/clients/web/`.
"""

import crypt
import json
import re
import tempfile
import time
from pathlib import Path
from urllib.parse import quote

import browser
from edges import EDGES
from harness import ENCODINGS, ROOT, Sample, encoded, format_spool, holds, indexes_in, memory, parser_of, random_sample
from harness import rng_of, same
from proxies import FRONT, NGINX, PORTS, Instance, Nginx, has
from shown import PIECE, RUSSIAN, Place, Shown, japanese

INSTALLED = "/usr/share/wovelatsa/web/"
# The two lines of the sample that let users read and delete each other's texts.
READS, DELETES = "    # GET    0;\n", "    # DELETE 0;\n"
BLOCKS, SLOTS = 2048, 512


def each_encoding(place):
    """A text in each encoding, and what has a byte order mark or is ASCII alone."""
    shown = place.shown
    for label in ENCODINGS:
        sample = random_sample(place.rng, label)
        name = f"{label}.txt"
        shown.choose(place.file(name, sample.data))
        shown.pick(name, sample.label)
        if sample.to != "utf-8":
            shown.select_to(name, label)
        shown.send(name)
        place.stored(name, sample.text)


def few_choices(place):
    """A byte order mark names the encoding, and ASCII alone is one choice beside both of UTF-16. Both are dropped."""
    shown, text = place.shown, "Grüße aus Łódź – привет"
    marked = ("marked.txt", "utf-16le", b"\xff\xfe" + text.encode("utf-16-le"), text, 1)
    for name, label, data, wanted, choices in (marked, ("plain.txt", "utf-8", b"A.\n", "A.\n", 3)):
        shown.drop(name, data)
        shown.pick(name, label)
        same(f"how many choices {name} has", shown.value(f"choices('{name}').length"), choices)
        shown.press(name, "send")
        place.stored(name, wanted.encode())


def beyond_the_sample(place):
    """What is looked at of a long file: the first MiB that isn't ASCII, and of equal names the widest."""
    late = "A line.\n" * 200_000 + RUSSIAN
    euro = "Grüße, é, à.\n" * 100_000 + "5 €\n"
    files = ("late.txt", "koi8-r", "koi8_r", late), ("euro.txt", "iso-8859-15", "cp1252", euro)
    for name, label, codec, text in files:
        place.begin(name, text.encode(codec), label)
        place.stored(name, text.encode())


def seen_beforehand(place):
    """A wrong label is seen in the lines, nothing is sent without a choice, and one that was sent is sent anew."""
    shown, data = place.shown, RUSSIAN.encode("koi8-r") * 3
    shown.choose(place.file("letter.txt", data))
    shown.until("choices", "card('letter.txt') && choices('letter.txt').length > 5")
    shown.picture("choices")
    same("the first choice", shown.value("choices('letter.txt')[0].querySelector('b').textContent"), "KOI8-R")
    holds("the right lines", "Съешь ещё этих" in shown.lines("letter.txt", "koi8-r"))
    wrong = RUSSIAN.encode("koi8-r").decode("cp1251")
    holds("the wrong ones", wrong.split(",")[0] in shown.lines("letter.txt", "windows-1251"))
    holds("what is lost is marked", shown.value("document.querySelectorAll('mark.lost').length") > 0)
    shown.press("letter.txt", "send")
    time.sleep(0.5)
    same("uploads without a choice", (place.uploads(), shown.shows("letter.txt", "state-text")), (0, ""))
    shown.pick("letter.txt", "windows-1251")
    shown.press("letter.txt", "send")
    path = shown.finished("letter.txt")
    same("the wrong text", place.client.text(path), data.decode("cp1251").encode())
    shown.delete("letter.txt", "wrong")
    shown.pick("letter.txt", "koi8-r")
    holds("the wrong one is gone", place.client.is_gone(path))
    shown.press("letter.txt", "send")
    shown.finished("letter.txt")
    holds("its lines", "Съешь ещё этих" in shown.shows("letter.txt", "stored"))
    shown.picture("end")
    place.stored("letter.txt", (RUSSIAN * 3).encode())


def lossy(place):
    """What is lost is counted before and at the end; characters that `to` lacks become references or stop it."""
    shown, text = place.shown, "Grüße für 5 € an Łucja\n"
    shown.choose(place.file("lossy.txt", text.encode() + b"\xff\x81\n"))
    shown.pick("lossy.txt", "utf-8")
    holds("the count", "2 characters lost" in shown.value("choiceOf('lossy.txt', 'utf-8').innerText"))
    shown.value("part('lossy.txt', 'settings').open = true")
    shown.select("lossy.txt", "to", "ISO-8859-15")
    shown.says("lossy.txt", "lacks", "lacks 3 characters")
    shown.picture("settings")
    shown.press("lossy.txt", "send")
    shown.says("lossy.txt", "counts", "2 of them are U\\+FFFD.*3 references")
    shown.picture("lost")
    place.stored("lossy.txt", encoded("iso-8859-15", text + "\ufffd\ufffd\n"))
    shown.choose(place.folder / "lossy.txt")
    shown.pick("lossy.txt", "utf-8")
    shown.select("lossy.txt", "to", "ISO-8859-15")
    shown.select("lossy.txt", "mode", "fatal")
    shown.press("lossy.txt", "send")
    shown.says("lossy.txt", "alert", "encoding of the stored text lacks")
    shown.picture("refused")
    path = place.upload("lossy.txt")
    shown.press("lossy.txt", "give-up")
    shown.pick("lossy.txt", "utf-8")
    holds("it is deleted", place.client.is_gone(path))
    shown.press("lossy.txt", "remove")


def killed(place):
    """The gateway is killed while a file comes, whose pieces end within characters, and is started again."""
    shown, sample = place.shown, japanese(place.rng, 3_500_000)
    shown.pieces(1)
    place.begin("killed.txt", sample.data, "shift_jis")
    shown.until_sent("killed.txt", 0.25)
    place.gateway.kill()
    shown.pieces()
    shown.says("killed.txt", "state-text", "Trying again in")
    shown.picture("waiting")
    place.gateway.start()
    place.client.close()
    place.stored("killed.txt", sample.text)


def line_lost(place):
    """The line is lost while a file comes, and is there again."""
    shown, sample = place.shown, japanese(place.rng, 2_500_000)
    shown.pieces(1)
    place.begin("line.txt", sample.data, "shift_jis")
    shown.until_sent("line.txt", 0.25)
    shown.line(False)
    shown.pieces()
    shown.says("line.txt", "state-text", "Trying again in")
    shown.line(True)
    place.stored("line.txt", sample.text)


def reloaded(place):
    """The page is reloaded while a file comes, and then the browser is ended: it goes on from what is stored."""
    shown, sample = place.shown, japanese(place.rng, 4_000_000)
    shown.pieces(1)
    place.begin("reloaded.txt", sample.data, "shift_jis")
    shown.until_sent("reloaded.txt", 0.25)
    shown.picture("sending")
    shown.load()
    shown.says("reloaded.txt", "state-text", "Not finished: 1")
    shown.picture("remembered")
    shown.choose(place.folder / "reloaded.txt")
    holds("its lines are shown", len(shown.says("reloaded.txt", "looked", "\n")) > 100)
    shown.picture("going-on")
    shown.pieces(1)
    shown.press("reloaded.txt", "go-on")
    shown.until_sent("reloaded.txt", 0.5)
    shown.press("reloaded.txt", "pause")
    shown.says("reloaded.txt", "state-text", "^Paused")
    shown.picture("paused")
    stored = place.client.offset(place.upload("reloaded.txt"))
    same("bytes that are stored", stored, 2 * PIECE)
    shown.end()
    seen = shown.seen
    place.shown = shown = Shown(place.folder, shown.pictures)
    shown.seen = seen
    shown.says("reloaded.txt", "state-text", "Not finished")
    shown.choose(place.folder / "reloaded.txt")
    shown.press("reloaded.txt", "go-on")
    shown.value("part('reloaded.txt', 'go-on').click()")
    shown.finished("reloaded.txt")
    same("refusals, where “Go on” was pressed twice", [it for it in shown.value("statuses") if it > 299], [])
    shown.load()
    shown.says("reloaded.txt", "counts", "characters, none of them U")
    place.stored("reloaded.txt", sample.text)


def at_once(place):
    """Two files at once, chosen together."""
    shown, samples = place.shown, {f"{it}.txt": japanese(place.rng, 1_500_000) for it in ("one", "two")}
    shown.pieces(0)
    shown.choose(*(place.file(name, it.data) for name, it in samples.items()))
    for name in samples:
        shown.pick(name, "shift_jis")
        shown.press(name, "send")
    shown.until("a piece of each", "waiting.length === 2")
    shown.pieces(2)
    shown.until("both", f"{' && '.join(f'''part('{it}', 'progress').value > 0''' for it in samples)}")
    shown.picture("two")
    shown.value("part('two.txt', 'pause').focus()")
    shown.pieces()
    shown.finished("one.txt")
    focused = "document.activeElement.closest('article').querySelector('h3').textContent"
    same("which card has the focus while the other one ends", shown.value(focused), "two.txt")
    for name, it in samples.items():
        place.stored(name, it.text)


def overtaken(place):
    """Another client sends a piece of the same upload first (409); then it deletes it (404)."""
    shown, sample = place.shown, japanese(place.rng, 3_500_000)
    shown.pieces(1)
    place.begin("overtaken.txt", sample.data, "shift_jis")
    shown.until_sent("overtaken.txt", 0.25)
    path = place.upload("overtaken.txt")
    offset = place.client.offset(path)
    piece = sample.data[offset : offset + 1000]
    place.client.patch(path, offset, piece)
    shown.pieces()
    shown.says("overtaken.txt", "state-text", "Somebody else sends the same upload")
    place.stored("overtaken.txt", sample.text)
    holds("it was refused with 409", 409 in shown.value("statuses"))
    shown.pieces(1)
    place.begin("gone.txt", sample.data, "shift_jis")
    shown.until_sent("gone.txt", 0.25)
    shown.press("gone.txt", "pause")
    shown.says("gone.txt", "state-text", "^Paused")
    place.client.delete(place.upload("gone.txt"))
    shown.press("gone.txt", "go-on")
    shown.says("gone.txt", "alert", "The upload is gone")
    shown.pieces()
    shown.press("gone.txt", "anew")
    shown.pick("gone.txt", "shift_jis")
    shown.press("gone.txt", "send")
    place.stored("gone.txt", sample.text)


def taken_out(place):
    """404 behind the last byte: nobody can tell here whether it arrived, acknowledged or not. It is sent once more."""
    shown = place.shown
    for last, told in (("acknowledged", "had all of it, and it is gone"), ("sent", "last byte was sent.* gone from")):
        place.begin("taken.txt", RUSSIAN.encode("cp1251"), "windows-1251")
        path = shown.finished("taken.txt")
        shown.value("Object.keys(localStorage).forEach(key => { const it = JSON.parse(localStorage[key]);"
                    f"it.last = '{last}'; localStorage[key] = JSON.stringify(it); }})")
        place.client.delete(path)
        shown.load()
        shown.says("taken.txt", "alert", f"{told}.*Nobody can tell here whether it arrived")
        shown.picture(f"perhaps-{last}")
        same("what else it says", shown.shows("taken.txt", "verdict"), "")
        if last == "sent":
            shown.choose(place.folder / "taken.txt")
            shown.pick("taken.txt", "windows-1251")
            shown.press("taken.txt", "send")
            place.stored("taken.txt", RUSSIAN.encode())
        else:
            shown.remove("taken.txt")
        same("what is remembered", place.uploads(), 0)


def renumbered(place):
    """Under a remembered number there is another upload of the same length: not a byte is sent to it."""
    shown, sample = place.shown, japanese(place.rng, 2_500_000)
    shown.pieces(1)
    place.begin("number.txt", sample.data, "shift_jis")
    shown.until_sent("number.txt", 0.25)
    shown.press("number.txt", "pause")
    shown.says("number.txt", "state-text", "^Paused")
    old, other = place.upload("number.txt"), place.client.create(sample)
    words = f"(([key, value]) => (localStorage[key.replace('{old}', '{other}')] = value.replace('{old}', '{other}'),"
    shown.value(words + " localStorage.removeItem(key)))(Object.entries(localStorage)[0])")
    shown.load()
    shown.says("number.txt", "alert", "the server now has another upload")
    same("what the other has, and what is remembered", (place.client.offset(other), place.uploads()), (0, 1))
    blob = f"new Blob(['a'.repeat({len(sample.data)})])"
    asked = f"it.send({{url: '{other}', metadata: 'from eA=='}}, {blob}, null, {{}})"
    words = f"import('./tus.js').then(it => {asked}).catch(error => error.constructor.name)"
    same("what tus.js says of another one", shown.value(words), "Another")
    for it in (old, other):
        place.client.delete(it)
    shown.choose(place.folder / "number.txt")
    shown.pick("number.txt", "shift_jis")
    shown.press("number.txt", "send")
    place.stored("number.txt", sample.text)


def full(place):
    """The spool is full (507), at first of texts and then of uploads: once there is room it is gone on with."""
    shown, sample = place.shown, japanese(place.rng, 3_000_000)
    filling = Sample("utf-8", b"a" * (BLOCKS - 600) * 4096, b"")
    path = place.client.create(filling)
    place.client.patch(path, 0, filling.data)
    place.begin("full.txt", sample.data, "shift_jis")
    shown.says("full.txt", "alert", "space for texts is used up")
    shown.picture("full")
    place.client.delete(path)
    shown.press("full.txt", "go-on")
    place.stored("full.txt", sample.text)
    paths = [place.client.create(Sample("utf-8", b"a", b"")) for _ in range(SLOTS)]
    place.begin("slots.txt", sample.data, "shift_jis")
    shown.says("slots.txt", "alert", "no place for one more upload")
    for it in paths:
        place.client.delete(it)
    shown.press("slots.txt", "go-on")
    place.stored("slots.txt", sample.text)


def changed(place):
    """A file that has changed isn't gone on with."""
    shown, sample = place.shown, japanese(place.rng, 3_000_000)
    shown.pieces(1)
    place.begin("changed.txt", sample.data, "shift_jis")
    shown.until_sent("changed.txt", 0.25)
    shown.load()
    shown.says("changed.txt", "state-text", "Not finished")
    path = place.upload("changed.txt")
    shown.press("changed.txt", "again")
    shown.choose(place.file("changed.txt", b"other " + sample.data))
    shown.until("two cards", "document.querySelectorAll('article').length === 2")
    shown.says("changed.txt", "alert", "the file has changed since")
    shown.picture("changed")
    shown.pick("changed.txt", "shift_jis")
    shown.press("changed.txt", "send")
    place.stored("changed.txt", b"other " + sample.text)
    shown.delete("changed.txt", "give-up")
    shown.until("no card", "document.querySelectorAll('article').length === 0")
    holds("the old one is deleted", place.client.is_gone(path))
    shown.pieces(1)
    place.begin("moved.txt", sample.data, "shift_jis")
    shown.until_sent("moved.txt", 0.25)
    path = place.upload("moved.txt")
    place.file("moved.txt", b"other")
    shown.pieces()
    shown.says("moved.txt", "alert", "has changed or can’t be read")
    shown.delete("moved.txt", "give-up")
    shown.until("no card", "document.querySelectorAll('article').length === 0")
    holds("what was stored is deleted", place.client.is_gone(path))


def by_keyboard(place):
    """Without a mouse: from the file's heading to the choice and the end. What is told is told to a screen reader."""
    shown = place.shown
    shown.choose(place.file("keys.txt", RUSSIAN.encode("cp1251")))
    shown.until("choices", "card('keys.txt') && choices('keys.txt').length > 3")
    shown.until("it is said", "document.getElementById('says').textContent.includes('ways to read it')")
    same("what has the focus", shown.value("document.activeElement.textContent"), "keys.txt")
    shown.key("Tab", 9)
    same("a radio button", shown.value("document.activeElement.type"), "radio")
    shown.key(" ", 32, " ")
    same("it is chosen", shown.value("choices('keys.txt').findIndex(it => it.querySelector(':checked'))"), 0)
    shown.key("Enter", 13, "\r")
    shown.finished("keys.txt")
    shown.until("the end is said", "document.getElementById('says').textContent.includes('Uploaded')")
    same("what has the focus at the end", shown.value("document.activeElement.textContent"), "keys.txt")
    place.stored("keys.txt", RUSSIAN.encode())
    unnamed = "[...document.querySelectorAll('input, select')].filter(it => !it.labels.length && !it.ariaLabel).length"
    same("controls without a label", shown.value(unnamed), 0)


def refusals(place):
    """Each refusal of the table in PROTOCOL.md has a text, and so has each part of the page that is to be filled."""
    table = (ROOT / "docs/PROTOCOL.md").read_text().partition("## Refusals")[2]
    numbers = sorted(int(it) for it in re.findall(r"^\| (\d+) \|", table, re.MULTILINE))
    texts = "import('./texts.js').then(it => Object.keys(it.texts.refusals).map(Number))"
    same("the refusals that have a text", sorted(place.shown.value(texts)), numbers)
    empty = "[document, ...[...document.querySelectorAll('template')].map(it => it.content)].flatMap(it =>"
    empty += " [...it.querySelectorAll('[data-text]')].map(one => one.dataset.text))"
    names = place.shown.value(f"import('./texts.js').then(it => {empty}.filter(one => !it.texts[one]))")
    same("texts that aren't there", names, [])


def texts_that_do_nothing(place):
    """A text that is a script isn't run by the page, and as a page of its own it may do nothing."""
    shown, data = place.shown, b"window.ran = true;\n"
    place.begin("script.txt", data, "utf-8")
    path = shown.finished("script.txt")
    runs = "new Promise(done => { const it = document.createElement('script'); it.src = '%s';"
    runs += " it.onload = it.onerror = () => done(Boolean(window.ran)); document.head.append(it); })"
    same("whether it runs", shown.value(runs % path), False)
    same("what forbids it", shown.value("faults.splice(0).map(it => it.split(' ')[0])"), ["script-src-elem"])
    names = ["x-content-type-options", "content-security-policy"]
    asked = f"fetch('{path}').then(it => {json.dumps(names)}.map(name => it.headers.get(name)))"
    same("the headers of a text", shown.value(asked), ["nosniff", "sandbox"])
    place.stored("script.txt", data)


def forbidden(place, nginx):
    """Behind the sample as it stands, which forbids reading and deleting, it says so, and shows what was chosen."""
    for line in (READS, DELETES):
        nginx.change("lines.conf", line.replace("# ", ""), line)
    shown = place.shown
    place.begin("forbidden.txt", RUSSIAN.encode("koi8-r"), "koi8-r")
    shown.says("forbidden.txt", "counts", "forbidden")
    holds("the lines that were chosen", "Съешь ещё" in shown.shows("forbidden.txt", "stored"))
    shown.picture("forbidden")
    same("the link", shown.shows("forbidden.txt", "link"), "")
    path = "/files/" + shown.value("Object.values(localStorage).map(JSON.parse)[0].url").rpartition("/")[2]
    same("the text", place.client.text(path), RUSSIAN.encode())
    shown.delete("forbidden.txt", "wrong")
    shown.says("forbidden.txt", "alert", "couldn’t be deleted")
    shown.press("forbidden.txt", "remove")
    place.texts += 1


def in_a_group(place, nginx):
    """The page of a group, behind its password: its uploads are of its own path, and nobody reads them there."""
    folder = nginx.folder.parent
    lines = (NGINX / "wovelatsa-groups.conf").read_text().replace("/etc/nginx", str(folder))
    hashed = crypt.crypt("a word", crypt.METHOD_SHA512)
    (folder / "wovelatsa-a.users").write_text(f"archive:{hashed}\n")
    old = (nginx.folder / "lines.conf").read_text()
    nginx.change("lines.conf", old, lines.replace(INSTALLED, f"{ROOT}/packaging/web/"))
    shown = place.shown
    shown.go(f"http://archive:{quote('a word')}@127.0.0.1:{FRONT}/a/page/")
    shown.drop("group.txt", RUSSIAN.encode("koi8-r"))
    shown.pick("group.txt", "koi8-r")
    shown.press("group.txt", "send")
    shown.says("group.txt", "counts", "forbidden")
    url = shown.value("Object.values(localStorage).map(JSON.parse)[0].url")
    holds(f"the path of the group: {url}", f":{FRONT}/a/files/" in url)
    same("the text", place.client.text(url.partition("/a")[2]), RUSSIAN.encode())
    shown.remove("group.txt")
    place.faultless()
    place.texts += 1


CASES = [each_encoding, few_choices, beyond_the_sample, seen_beforehand, lossy, killed, line_lost, reloaded]
CASES += [at_once, overtaken, taken_out, renumbered, full, changed, by_keyboard, refusals, texts_that_do_nothing]
CASES += EDGES


def run(place, nginx, names):
    place.shown.picture("empty")
    headers = place.shown.value("fetch(location.href).then(it => it.headers.get('content-security-policy'))")
    holds(f"the policy: {headers}", "default-src 'self'" in headers)
    for case in (it for it in CASES if not names or it.__name__ in names):
        began = time.monotonic()
        case(place)
        place.faultless()
        print(f"{case.__name__}: {time.monotonic() - began:.1f} s", flush=True)
    forbidden(place, nginx)
    in_a_group(place, nginx)


def main():
    words = parser_of(__doc__)
    words.add_argument("--pictures", type=Path, help="a folder for pictures of the states")
    words.add_argument("--cases", nargs="+", help="the cases to try, by the names of their functions; else all")
    words = words.parse_args()
    if not browser.program() or not has("nginx"):
        print("page.py: chromium or nginx isn't there, nothing was tried")
        return
    rng = rng_of(words.seed, "page")
    with tempfile.TemporaryDirectory(dir=memory(), ignore_cleanup_errors=True) as room:
        folder = Path(room)
        format_spool(words.program, folder / "spool", BLOCKS, indexes_in(folder, words.indexes))
        lines = (NGINX / "wovelatsa-browsers.conf").read_text()
        same("where the page is installed", lines.count(INSTALLED), 1)
        for line in (READS, DELETES):
            same(f"how often the sample has {line!r}", lines.count(line), 1)
            lines = lines.replace(line, line.replace("# ", ""))
        nginx = Nginx(folder / "nginx", lines.replace(INSTALLED, f"{ROOT}/packaging/web/"))
        place = None
        gateway = Instance(words.program, folder / "spool", PORTS["a"])
        try:
            place = Place(Shown(folder, words.pictures), gateway, folder, rng)
            run(place, nginx, words.cases)
        finally:
            if place:
                place.shown.close()
            nginx.stop()
            gateway.kill()
    cases, states = len(CASES) + 2, place.shown.seen
    print(f"{place.texts} texts by the page, in 21 encodings: every one right; {cases} cases, {states} states, each in")
    print("a wide and a narrow window, without a fault of the page's policy")


if __name__ == "__main__":
    main()
