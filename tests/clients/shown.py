"""The page that uploads (packaging/web) in a headless chromium, and what its cases share."""

import base64
import json
import os
import time

import browser
from harness import Client, Sample, holds, repertoire, same
from proxies import FRONT, PORTS

URL = f"http://127.0.0.1:{FRONT}/page/"
PIECE = 1_000_000
WIDE, NARROW = (860, 900), (360, 740)
# How long things may take, in seconds.
PATIENCE = 60
RUSSIAN = "Съешь ещё этих мягких французских булок, да выпей чаю.\nШирокая электрификация южных губерний.\n"
# What each document has before its own scripts: its faults, the statuses that it got, how many pieces it may still
# send, replies of nobody's that the tab's `sessionStorage` keeps for a method, its cards and their parts.
HELPERS = """
window.faults = [];
window.statuses = [];
window.left = Infinity;
window.waiting = [];
const asked = fetch;
const ends = (signal, does) => signal.addEventListener("abort", () => does(signal.reason));
const stalls = signal => new Response(new ReadableStream({start(it) {
    it.enqueue(new TextEncoder().encode("some"));
    ends(signal, reason => it.error(reason));
}}), {headers: {"Tus-Resumable": "1.0.0", "Content-Length": "100"}});
const answer = (it, signal) => it === "silence" ? new Promise((_, stop) => ends(signal, stop))
    : it === "stalls" ? stalls(signal) : new Response(it[2], {status: it[0], headers: it[1]});
window.fetch = async (url, words) => {
    const own = JSON.parse(sessionStorage.answers ?? "{}")[words?.method];
    const reply = await (own ? answer(own, words.signal) : asked(url, words));
    statuses.push(reply.status);
    return reply;
};
const {send, abort} = XMLHttpRequest.prototype;
const goes = it => { left -= 1; send.call(it.request, it.body); };
XMLHttpRequest.prototype.send = function (body) {
    this.addEventListener("load", () => statuses.push(this.status));
    left > 0 ? goes({request: this, body}) : waiting.push({request: this, body});
};
XMLHttpRequest.prototype.abort = function () {
    const place = waiting.findIndex(it => it.request === this);
    place < 0 ? abort.call(this) : waiting.splice(place, 1) && this.dispatchEvent(new Event("abort"));
};
window.lets = count => { left = count; waiting.splice(0, left).forEach(goes); };
if (sessionStorage.plain) Object.defineProperty(crypto, "subtle", {value: undefined});
addEventListener("securitypolicyviolation", it => faults.push(it.violatedDirective + " " + it.blockedURI));
addEventListener("error", it => faults.push(it.message));
addEventListener("unhandledrejection", it => faults.push(String(it.reason)));
window.card = name => [...document.querySelectorAll("article")].find(it => it.querySelector("h3").textContent === name);
window.part = (name, what) => card(name)?.querySelector(`[data-part="${what}"]`);
window.seen = it => it && it.checkVisibility() ? it.innerText : "";
window.namesOf = it => [it.querySelector("b").textContent,
    ...it.querySelector(".note").textContent.replace("the same text as ", "").split(";")[0].split(", ")];
window.choices = name => [...card(name).querySelectorAll(".choice")];
window.choiceOf = (name, label) => choices(name).find(it => namesOf(it).some(one => one.toLowerCase() === label));
"""


class Shown(browser.Browser):
    """The page in a browser of its own, whose profile is in a folder."""

    def __init__(self, folder, pictures=None):
        super().__init__(folder, URL)
        self.pictures, self.seen = pictures, 0
        for domain in ("Page", "Network", "DOM"):
            self.call(f"{domain}.enable")
        self.call("Page.addScriptToEvaluateOnNewDocument", source=HELPERS)
        self.call("Emulation.setScrollbarsHidden", hidden=True)
        self.sized(*WIDE)
        self.load()

    def load(self):
        """Loads the page anew."""
        self.goes("Page.reload")

    def go(self, url):
        """Goes to another page of this kind."""
        self.goes("Page.navigate", url=url)

    def goes(self, method, **words):
        self.value("window.old = true")
        self.call(method, **words)
        is_new = "window.old === undefined && document.readyState === 'complete' && window.card"
        while True:
            try:
                return self.until("a new document", is_new)
            except KeyError:
                # The old document went while it was asked.
                continue

    def end(self):
        """Ends the browser in order, as a machine that is switched off does."""
        self.session, command = {}, {"id": 0, "method": "Browser.close"}
        os.write(self.commands, json.dumps(command).encode() + b"\0")
        self.process.wait(PATIENCE)
        os.close(self.commands)
        os.close(self.answers)

    def sized(self, width, height):
        words = {"width": width, "height": height, "deviceScaleFactor": 1, "mobile": False}
        self.call("Emulation.setDeviceMetricsOverride", **words)

    def until(self, what, script):
        """Waits until a script is true."""
        end = time.monotonic() + PATIENCE
        while not self.value(f"Boolean({script})"):
            if time.monotonic() > end:
                holds(f"{what}: not within {PATIENCE} s; {self.value('document.body?.innerText')}", False)
            time.sleep(0.05)

    def choose(self, *paths):
        """Chooses files, as by the page's own button."""
        found = self.call("Runtime.evaluate", expression="document.getElementById('files')")["result"]["objectId"]
        self.call("DOM.setFileInputFiles", files=[str(it) for it in paths], objectId=found)

    def drop(self, name, data):
        """Drops a file onto the page."""
        file = f"new File([Uint8Array.from({json.dumps(list(data))})], {json.dumps(name)})"
        event = "new DragEvent('drop', {dataTransfer: data, bubbles: true, cancelable: true})"
        self.value(f"(data => (data.items.add({file}), document.body.dispatchEvent({event})))(new DataTransfer())")

    def says(self, name, what, pattern):
        """Waits until a part of a file's card shows a text, and returns it."""
        words = f"seen(part({json.dumps(name)}, '{what}'))"
        self.until(f"{name}: {what} {pattern}", f"new RegExp({json.dumps(pattern)}).test({words})")
        return self.value(words)

    def shows(self, name, what):
        return self.value(f"seen(part({json.dumps(name)}, '{what}'))")

    def press(self, name, what):
        self.until(f"{name}: {what}", f"part({json.dumps(name)}, '{what}')?.checkVisibility()")
        self.value(f"part({json.dumps(name)}, '{what}').click()")

    def press_of_list(self, what):
        """Presses a button that is for all cards."""
        button = f"document.querySelector('#list [data-part={what}]')"
        self.until(what, f"{button}.checkVisibility()")
        self.value(f"{button}.click()")

    def select(self, name, what, value):
        words = f"(it => {{ it.value = {json.dumps(value)}; it.onchange?.(); }})"
        self.value(f"{words}(part({json.dumps(name)}, '{what}'))")

    def select_to(self, name, label):
        """Selects the encoding of the stored text by its label."""
        options = f"[...part({json.dumps(name)}, 'to').options].map(it => it.value)"
        self.select(name, "to", next(it for it in self.value(options) if it.lower() == label))

    def lines(self, name, label):
        """The lines of a file under a label, as they are shown."""
        return self.value(f"choiceOf({json.dumps(name)}, '{label}').querySelector('pre').innerText")

    def pick(self, name, label):
        """Chooses the lines of a label, which have to be shown."""
        words = json.dumps(name)
        self.until(f"{name}: choices", f"part({words}, 'form')?.checkVisibility()")
        self.value(f"choiceOf({words}, '{label}').checkVisibility() || part({words}, 'more').click()")
        self.value(f"choiceOf({words}, '{label}').querySelector('input').click()")

    def replies(self, **replies):
        """Lets somebody else than the gateway answer these methods, also in later documents: `silence`, `stalls` within
        a text, or a status, headers and a text."""
        self.value(f"sessionStorage.answers = JSON.stringify({json.dumps(replies)})")

    def patience(self, **times):
        """Makes this document as patient as is said, in milliseconds."""
        self.value(f"import('./requests.js').then(it => void Object.assign(it.patience, {json.dumps(times)}))")

    def states(self):
        """How many cards there are in each state."""
        states = self.value("[...document.querySelectorAll('article')].map(it => it.dataset.state)")
        return {it: states.count(it) for it in states}

    def line(self, there, speed=-1):
        """Whether there is a line, and how many bytes a second go up."""
        words = {"offline": not there, "latency": 0, "downloadThroughput": -1, "uploadThroughput": speed}
        self.call("Network.emulateNetworkConditions", **words)

    def pieces(self, count="Infinity"):
        """Lets this document send so many pieces more. Each other waits, until more are let out or it is given up."""
        self.value(f"lets({count})")

    def sent(self, name):
        """How far the progress bar is, of 1."""
        return self.value(f"part({json.dumps(name)}, 'progress').value")

    def until_sent(self, name, share):
        self.until(f"{name}: {share} sent", f"part({json.dumps(name)}, 'progress').value >= {share}")

    def finished(self, name):
        """Waits until a file is sent and read back: the path of its upload."""
        self.says(name, "verdict", "^Uploaded")
        return self.value(f"part({json.dumps(name)}, 'link').pathname")

    def remove(self, name):
        self.value(f"part({json.dumps(name)}, 'remove').click()")

    def send(self, name):
        """Sends a file, also where it asks whether that is meant."""
        self.press(name, "send")
        sure = f"part({json.dumps(name)}, 'sure').checkVisibility()"
        self.value(f"{sure} && part({json.dumps(name)}, 'yes').click()")

    def delete(self, name, what):
        """Deletes by a button, which asks whether it is meant."""
        self.press(name, what)
        self.press(name, "yes")

    def picture(self, state):
        """Looks at a state in a wide and a narrow window: nothing is wider than the window."""
        self.seen += 1
        for kind, size in (("wide", WIDE), ("narrow", NARROW)):
            self.sized(*size)
            width = self.value("document.scrollingElement.scrollWidth")
            holds(f"{state}: {width} pixels in a window of {size[0]}", width <= size[0])
            if self.pictures:
                image = self.call("Page.captureScreenshot", format="png", captureBeyondViewport=True)["data"]
                (self.pictures / f"{state}-{kind}.png").write_bytes(base64.b64decode(image))
        self.sized(*WIDE)

    def key(self, name, code, text=""):
        """Presses a key."""
        words = {"key": name, "code": name, "windowsVirtualKeyCode": code}
        self.call("Input.dispatchKeyEvent", type="keyDown", text=text, **words)
        self.call("Input.dispatchKeyEvent", type="keyUp", **words)


class Place:
    """What the cases share: the page, a client of the gateway itself, and a folder for files."""

    def __init__(self, shown, gateway, folder, rng):
        self.shown, self.gateway, self.folder, self.rng = shown, gateway, folder, rng
        self.client, self.texts = Client(PORTS["a"]), 0

    def file(self, name, data):
        path = self.folder / name
        path.write_bytes(data)
        return path

    def stored(self, name, text):
        """A file was sent: its text is what it has to be. It is taken out, and leaves the page."""
        path = self.shown.finished(name)
        holds(f"the stored text of {name}", self.client.text(path) == text)
        self.texts += 1
        self.client.delete(path)
        self.shown.remove(name)
        self.faultless()

    def faultless(self):
        same("faults of the page", self.shown.value("faults"), [])

    def begin(self, name, data, label):
        """Chooses a file and sends it under a label."""
        self.shown.choose(self.file(name, data))
        self.shown.pick(name, label)
        self.shown.press(name, "send")

    def upload(self, name):
        """The path of the upload that is remembered for a file."""
        begun = "Object.values(localStorage).map(JSON.parse).filter(it => it.last !== 'acknowledged')"
        script = begun + ".find(it => it.file === %s).url"
        return "/files/" + self.shown.value(script % json.dumps(name)).rpartition("/")[2]

    def uploads(self):
        """How many uploads are remembered."""
        return self.shown.value("localStorage.length")


def japanese(rng, size):
    """A text of Shift_JIS in lines, of some bytes, whose pieces end within characters."""
    chars = [it for it in repertoire("shift_jis") if len(it.encode("cp932")) == 2]
    text = "x" + "\n".join("".join(rng.choices(chars, k=39)) for _ in range(size // 79))
    data = text.encode("cp932")
    # A line has 79 bytes, so that a character begins before the first piece ends, and ends behind it.
    fits = data[:PIECE].decode("cp932", "ignore").encode("cp932")
    return Sample("shift_jis", data, text.encode()) if len(fits) < PIECE else japanese(rng, size - 1)
