"""The page that uploads where something else goes wrong than the line: cases of page.py."""

import json
import os
import shutil
import subprocess
import time

from harness import Sample, holds, same
from shown import PIECE, RUSSIAN, japanese

# A page to sign in, and a proxy that asks for a password.
STRANGER = [200, {"Content-Type": "text/html"}, "Sign in"]
UNKNOWN = [401, {}, ""]
# Bytes a second, of twelve files at once.
SLOW = 18_000


def begun(place, name, data=None):
    """A file of which a piece is stored, paused: its bytes."""
    shown = place.shown
    data = japanese(place.rng, 2_500_000).data if data is None else data
    shown.pieces(1)
    place.begin(name, data, "shift_jis")
    shown.until_sent(name, 0.3)
    shown.press(name, "pause")
    shown.says(name, "state-text", "^Paused")
    shown.pieces()
    return data


def text_of(data):
    return data.decode("cp932").encode()


def strangers(place):
    """A page to sign in answers in the gateway's place, with 200: nothing is forgotten, nothing of it is shown."""
    shown = place.shown
    data = begun(place, "portal.txt")
    shown.replies(HEAD=STRANGER)
    shown.press("portal.txt", "go-on")
    shown.says("portal.txt", "alert", "Something else than the text server answered")
    shown.load()
    shown.says("portal.txt", "alert", "Something else than the text server answered")
    same("what is remembered", place.uploads(), 1)
    shown.replies(GET=STRANGER)
    shown.load()
    shown.says("portal.txt", "state-text", "Not finished")
    shown.choose(place.folder / "portal.txt")
    shown.press("portal.txt", "go-on")
    shown.says("portal.txt", "counts", "couldn’t be read. Something else")
    holds("nothing of it is shown", "Sign in" not in shown.shows("portal.txt", "stored"))
    shown.replies()
    shown.press("portal.txt", "read-back")
    shown.says("portal.txt", "counts", "none of them U")
    place.stored("portal.txt", text_of(data))


def unknown_user(place):
    """What can't be deleted, since a password is asked for, isn't forgotten. A button pressed twice does one step."""
    shown = place.shown
    begun(place, "password.txt")
    place.begin("beside.txt", b"beside", "utf-8")
    other, path = shown.finished("beside.txt"), place.upload("password.txt")
    shown.replies(DELETE=UNKNOWN)
    shown.press("password.txt", "give-up")
    shown.picture("sure")
    shown.press("password.txt", "no")
    shown.delete("password.txt", "give-up")
    shown.says("password.txt", "alert", "couldn’t be deleted.*sign in")
    shown.picture("undeleted")
    same("what is remembered", place.uploads(), 2)
    shown.replies()
    shown.press("password.txt", "give-up")
    shown.value("[1, 2].forEach(() => part('password.txt', 'yes').click())")
    shown.until("its choices", "part('password.txt', 'form')?.checkVisibility()")
    holds("it is deleted", place.client.is_gone(path))
    shown.value("[1, 2].forEach(it => part('password.txt', 'remove')?.click())")
    same("the cards", shown.states(), {"done": 1})
    place.client.delete(other)
    shown.remove("beside.txt")


def stalled(place):
    """A text that stops coming is given up, skipped, or read once more; what an upload before it had isn't shown."""
    shown, data = place.shown, RUSSIAN.encode("koi8-r")
    place.begin("stalled.txt", data, "windows-1251")
    shown.finished("stalled.txt")
    shown.replies(GET="stalls")
    shown.delete("stalled.txt", "wrong")
    shown.pick("stalled.txt", "koi8-r")
    shown.press("stalled.txt", "send")
    shown.says("stalled.txt", "state-text", "^Reading the stored text: 4 bytes of 100 bytes")
    shown.picture("reading-back")
    shown.press("stalled.txt", "skip")
    shown.says("stalled.txt", "counts", "wasn’t read back")
    shown.says("stalled.txt", "stored-title", "as they were chosen")
    holds("the lines", "Съешь ещё" in shown.shows("stalled.txt", "stored"))
    shown.patience(silence=500)
    shown.press("stalled.txt", "read-back")
    shown.says("stalled.txt", "counts", "couldn’t be read. The line or the server was lost")
    shown.replies()
    shown.press("stalled.txt", "read-back")
    shown.says("stalled.txt", "stored-title", "of the stored text")
    place.stored("stalled.txt", RUSSIAN.encode())


def silent(place):
    """A server that says nothing is given up after a silence, and asked again."""
    shown = place.shown
    data = begun(place, "silent.txt")
    shown.patience(silence=500)
    shown.replies(HEAD="silence")
    shown.press("silent.txt", "go-on")
    shown.says("silent.txt", "state-text", "^The line or the server is away")
    shown.says("silent.txt", "state-text", "set-up may be wrong")
    shown.replies()
    shown.value("dispatchEvent(new Event('online'))")
    place.stored("silent.txt", text_of(data))


def memory_of_the_browser(place):
    """What is remembered is broken in part, or there is no room for more."""
    shown = place.shown
    data = begun(place, "broken.txt")
    words = "Object.keys(localStorage).filter(it => it.startsWith('wovelatsa'))[0].split(' ').slice(0, 2).join(' ')"
    for number, entry in enumerate(("{not json", "null", "[]", '{"url": 7}')):
        shown.value(f"localStorage[{words} + ' {number}'] = {json.dumps(entry)}")
    shown.load()
    shown.says("broken.txt", "state-text", "Not finished")
    shown.press_of_list("forget-all")
    shown.press_of_list("keep-all")
    same("what is remembered", place.uploads(), 5)
    shown.value("{ let size = 1 << 22; while (size > 0) { try { localStorage['x' + size + Math.random()] = "
                "'x'.repeat(size); } catch { size >>= 1; } } }")
    shown.choose(place.folder / "broken.txt")
    shown.press("broken.txt", "go-on")
    place.stored("broken.txt", text_of(data))
    place.begin("forgotten.txt", data, "shift_jis")
    shown.until("it says so", "document.getElementById('not-remembered').checkVisibility()")
    place.stored("forgotten.txt", text_of(data))
    shown.value("localStorage.clear()")
    place.begin("kept.txt", b"kept", "utf-8")
    path = shown.finished("kept.txt")
    shown.press_of_list("forget-all")
    shown.press_of_list("forget")
    same("what is left, and the text", (shown.states(), place.uploads(), place.client.text(path)), ({}, 0, b"kept"))
    place.client.delete(path)


def same_name(place):
    """Another file of the same name, size and time isn't gone on with: chosen after a reload, or written meanwhile."""
    shown = place.shown
    data = begun(place, "scan.txt")
    path = place.folder / "scan.txt"
    other = data[:10] + data[12:14] + data[10:12] + data[14:]
    upload, times = place.upload("scan.txt"), (os.stat(path).st_atime_ns, os.stat(path).st_mtime_ns)

    def written(content):
        path.write_bytes(content)
        os.utime(path, ns=times)

    shown.load()
    shown.says("scan.txt", "state-text", "Not finished")
    written(other)
    shown.choose(path)
    shown.says("scan.txt", "alert", "another file than the one that was begun")
    shown.picture("other-file")
    same("whether it may be gone on with", shown.shows("scan.txt", "go-on"), "")
    written(data)
    shown.choose(path)
    shown.says("scan.txt", "state-text", "^Stopped")
    written(other)
    shown.press("scan.txt", "go-on")
    shown.says("scan.txt", "alert", "another file than the one that was begun")
    same("what is stored", place.client.offset(upload), PIECE)
    written(data)
    shown.choose(path)
    shown.pieces(0)
    shown.press("scan.txt", "go-on")
    shown.until("its second piece", "waiting.length === 1")
    written(other)
    shown.pieces()
    shown.says("scan.txt", "alert", "another file than the one that was begun")
    same("what is stored", place.client.offset(upload), 2 * PIECE)
    written(data)
    shown.choose(path)
    shown.pieces(0)
    shown.press("scan.txt", "go-on")
    shown.until("its last piece", "waiting.length === 1")
    written(other)
    shown.pieces()
    place.stored("scan.txt", text_of(data))


def twins(place):
    """Two files of one name, size and time, of two folders, have a card each. One that is chosen twice has one."""
    shown, files = place.shown, {}
    for text in (b"one text", b"another."):
        folder = place.folder / text.decode()
        folder.mkdir()
        files[text] = folder / "twin.txt"
        files[text].write_bytes(text)
        os.utime(files[text], (1e9, 1e9))
    one, other = files.values()
    shown.choose(one)
    shown.says("twin.txt", "about", "8 bytes")
    shown.choose(one)
    shown.choose(other)
    shown.says("twin.txt", "alert", "Another file of this name, size and time")
    same("the cards", shown.states(), {"choosing": 2})
    for text in (b"another.", b"one text"):
        shown.pick("twin.txt", "utf-8")
        shown.press("twin.txt", "send")
        place.stored("twin.txt", text)


def plain_http(place):
    """Where a browser gives no digests it asks, with the file's name, size and time."""
    shown = place.shown
    shown.value("sessionStorage.plain = 1")
    shown.load()
    data = begun(place, "plainly.txt")
    shown.load()
    shown.says("plainly.txt", "state-text", "Not finished")
    shown.choose(place.folder / "plainly.txt")
    shown.says("plainly.txt", "alert", r"can’t tell whether it is the file.*\(plainly.txt\).* MB\).* are the same")
    shown.picture("is-it-the-same")
    shown.press("plainly.txt", "go-on")
    place.stored("plainly.txt", text_of(data))
    shown.value("sessionStorage.clear()")
    shown.load()


def two_windows(place):
    """An upload that another window sends isn't sent by this one. What is being sent isn't left unasked."""
    shown = place.shown
    leaves = "dispatchEvent(new Event('beforeunload', {cancelable: true}))"
    same("whether it asks before it is left", shown.value(f"!{leaves}"), False)
    data = begun(place, "windows.txt")
    same("whether it asks while it is paused", shown.value(f"!{leaves}"), False)
    url = shown.value("Object.values(localStorage).map(JSON.parse)[0].url")
    held = f"navigator.locks.request('wovelatsa {url}', () => new Promise(done => window.gives = done))"
    shown.value(f"void {held}")
    shown.until("the other window has it", "window.gives")
    shown.press("windows.txt", "go-on")
    shown.says("windows.txt", "alert", "Another window of this browser sends this upload")
    shown.value("gives()")
    shown.pieces(0)
    shown.press("windows.txt", "go-on")
    shown.until("a piece", "waiting.length === 1")
    same("whether it asks while it is sent", shown.value(f"!{leaves}"), True)
    shown.pieces()
    place.stored("windows.txt", text_of(data))


def twelve_slowly(place):
    """Twelve files over a slow line: two at a time, the bars move within a piece, and none starves the others."""
    shown = place.shown
    samples = {f"slow-{it}.txt": RUSSIAN.encode("koi8-r") * 400 for it in range(12)}
    shown.patience(silence=4000)
    shown.choose(*(place.file(name, data) for name, data in samples.items()))
    kinds = "seen(document.querySelector('[data-part=kind-buttons]'))"
    shown.until("one choice for all", f"{kinds}.includes('for these 12')")
    shown.picture("many")
    shown.value("document.querySelector('[data-part=kind-buttons] button').click()")
    shown.until("all are chosen", "document.querySelector('[data-part=send-all]').innerText.includes('all 12')")
    shown.picture("many-chosen")
    shown.line(True, SLOW)
    shown.value("window.dones = []; document.addEventListener('wovelatsa:done', it => dones.push(it.detail.file))")
    shown.press_of_list("send-all")
    bars = "[...document.querySelectorAll('article[data-state=sending]')].map(it => it.querySelector('progress').value)"
    shown.until("a bar within the first piece", f"{bars}.some(it => it > 0 && it < 0.9)")
    shown.picture("queue")
    states = shown.states()
    holds(f"two at a time: {states}", states.get("queued", 0) >= 9 and states.get("sending", 0) <= 2)
    shown.until("all", "dones.length === 12")
    shown.line(True)
    same("which are done", sorted(shown.value("dones")), sorted(samples))
    shown.until("all are read back", "document.querySelectorAll('article[data-state=done]').length === 12")
    paths = shown.value("[...document.querySelectorAll('[data-part=link]')].map(it => it.pathname)")
    for path in paths:
        same("a text", place.client.text(path), RUSSIAN.encode() * 400)
        place.client.delete(path)
    place.texts += 12
    shown.press_of_list("remove-done")
    same("what is left", (shown.states(), place.uploads()), ({}, 0))
    shown.load()


def killed_under_six(place):
    """The gateway is killed again and again under six uploads."""
    shown = place.shown
    samples = {f"six-{it}.txt": japanese(place.rng, 600_000 + it) for it in range(6)}
    shown.value("import('./tus.js').then(it => void (it.pieces.most = 100_000))")
    for name, sample in samples.items():
        place.begin(name, sample.data, "shift_jis")
    for _ in range(3):
        time.sleep(0.5)
        place.gateway.kill()
        time.sleep(0.3)
        place.gateway.start()
        place.client.close()
    for name, sample in samples.items():
        place.stored(name, sample.text)
    shown.load()


def cleaned_up(place):
    """A clean-up of what isn't complete, beside clients whose last pieces are on their way: none says 'uploaded'."""
    shown, data = place.shown, RUSSIAN.encode("koi8-r")
    names = ("clean-1.txt", "clean-2.txt")
    shown.pieces(0)
    for name in names:
        place.begin(name, data, "koi8-r")
    shown.until("their pieces", "waiting.length === 2")
    program, _, spool, *_ = place.gateway.words
    place.gateway.kill()
    shown.pieces()
    for name in names:
        shown.says(name, "state-text", "Trying again in")
    subprocess.run([program, "delete", spool, "--incomplete", "--yes"], check=True, stdout=subprocess.DEVNULL)
    place.gateway.start()
    place.client.close()
    for name in names:
        shown.says(name, "alert", "Nobody can tell here whether it arrived")
        same("what else it says", shown.shows(name, "verdict"), "")
    shown.load()
    for name in names:
        shown.says(name, "alert", "Nobody can tell here whether it arrived")
        shown.choose(place.folder / name)
        shown.pick(name, "koi8-r")
        shown.press(name, "send")
        place.stored(name, RUSSIAN.encode())


def put_back(place):
    """A spool is put back from a copy that was made before an upload was acknowledged: none says 'uploaded'."""
    shown, spool = place.shown, place.gateway.words[2]
    place.gateway.kill()
    shutil.copy(spool, f"{spool}.copy")
    place.gateway.start()
    place.client.close()
    place.begin("back.txt", RUSSIAN.encode("koi8-r"), "koi8-r")
    shown.finished("back.txt")
    place.gateway.kill()
    shutil.copy(f"{spool}.copy", spool)
    place.gateway.start()
    place.client.close()
    shown.load()
    shown.says("back.txt", "alert", "had all of it, and it is gone.*Nobody can tell here whether it arrived")
    same("what else it says", shown.shows("back.txt", "verdict"), "")
    shown.choose(place.folder / "back.txt")
    shown.pick("back.txt", "koi8-r")
    shown.press("back.txt", "send")
    place.stored("back.txt", RUSSIAN.encode())


def too_large(place):
    """A text that no spool takes is warned of, and more than the server's limit isn't sent."""
    shown = place.shown
    for name, size in (("large.txt", 300 << 20), ("larger.txt", (1 << 30) + 1)):
        with open(place.folder / name, "wb") as file:
            file.truncate(size)
        shown.choose(place.folder / name)
    shown.says("larger.txt", "alert", "more than 1,073,741,824 bytes")
    shown.pick("large.txt", "utf-8")
    shown.says("large.txt", "large", "some 315 MB")
    shown.press("large.txt", "send")
    shown.says("large.txt", "question", "would be too large")
    shown.picture("large")
    shown.press("large.txt", "no")
    same("whether it is sent", (shown.shows("large.txt", "state-text"), place.uploads()), ("", 0))
    for name in ("large.txt", "larger.txt"):
        shown.remove(name)


def room_again(place):
    """Where there was no room it is tried again by itself."""
    shown = place.shown
    paths = [place.client.create(Sample("utf-8", b"a", b"")) for _ in range(512)]
    place.begin("room.txt", RUSSIAN.encode(), "utf-8")
    shown.says("room.txt", "state-text", "again by itself each minute")
    for path in paths:
        place.client.delete(path)
    shown.patience(room=300)
    shown.press("room.txt", "go-on")
    place.stored("room.txt", RUSSIAN.encode())
    filling = Sample("utf-8", b"a" * 2000 * 4096, b"")
    path = place.client.create(filling)
    place.client.patch(path, 0, filling.data)
    sample = japanese(place.rng, 2_000_000)
    place.begin("room.txt", sample.data, "shift_jis")
    shown.says("room.txt", "alert", "space for texts is used up")
    place.client.delete(path)
    place.stored("room.txt", sample.text)
    paths = [place.client.create(Sample("utf-8", b"a", b"")) for _ in range(512)]
    place.begin("no-room.txt", RUSSIAN.encode(), "utf-8")
    shown.says("no-room.txt", "state-text", "again by itself each minute")
    shown.press("no-room.txt", "anew")
    shown.until("its choices", "part('no-room.txt', 'form')?.checkVisibility()")
    for path in paths:
        place.client.delete(path)
    time.sleep(0.6)
    same("what is given up isn't begun by itself", (shown.states(), place.uploads()), ({"choosing": 1}, 0))
    shown.remove("no-room.txt")


EDGES = [strangers, unknown_user, stalled, silent, memory_of_the_browser, same_name, twins, plain_http]
EDGES += [two_windows]
EDGES += [twelve_slowly, killed_under_six, cleaned_up, put_back, too_large, room_again]
