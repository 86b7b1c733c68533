"""A headless chromium as a tus client: `fetch` from a page, over the debugging pipe."""

import base64
import json
import os
import select
import shutil
import subprocess
import time

UPLOAD = """(async (front, data, cut, metadata) => {
    const bytes = Uint8Array.from(atob(data), c => c.charCodeAt(0));
    const tus = {"Tus-Resumable": "1.0.0"};
    const create = {...tus, "Upload-Length": String(bytes.length), "Upload-Metadata": metadata};
    const made = await fetch(front + "/files", {method: "POST", headers: create});
    const url = new URL(made.headers.get("Location"), front || location.href);
    const patch = (offset, body) => fetch(url, {method: "PATCH", body, headers:
        {...tus, "Content-Type": "application/offset+octet-stream", "Upload-Offset": String(offset)}});
    await patch(0, bytes.slice(0, cut));
    const head = await fetch(url, {method: "HEAD", headers: tus});
    const offset = Number(head.headers.get("Upload-Offset"));
    await patch(offset, bytes.slice(offset));
    const text = new Uint8Array(await (await fetch(url)).arrayBuffer());
    return btoa(Array.from(text, byte => String.fromCharCode(byte)).join(""));
})"""


def program():
    """The browser, where there is one."""
    return shutil.which("chromium") or shutil.which("chromium-browser") or shutil.which("google-chrome")


class Browser:
    """A browser that shows a page, and so is at its origin."""

    def __init__(self, folder, url):
        commands, self.commands = os.pipe()
        self.answers, answers = os.pipe()
        words = [program(), "--headless", "--no-sandbox", "--disable-gpu", "--remote-debugging-pipe"]
        words.append(f"--user-data-dir={folder}/profile")

        def wire():
            for pipe, place in ((commands, 103), (answers, 104), (103, 3), (104, 4)):
                os.dup2(pipe, place)

        quiet = subprocess.DEVNULL
        self.process = subprocess.Popen(words, preexec_fn=wire, pass_fds=(3, 4), stdout=quiet, stderr=quiet)
        os.close(commands)
        os.close(answers)
        self.rest, self.number, self.session = b"", 0, {}
        page = self.call("Target.createTarget", url=url)["targetId"]
        self.session = {"sessionId": self.call("Target.attachToTarget", targetId=page, flatten=True)["sessionId"]}
        self.wait_for(url)

    def wait_for(self, url):
        """Waits until the page is there."""
        for _ in range(600):
            if self.value("document.readyState == 'complete' ? location.href : ''") == url:
                return
            time.sleep(0.1)
        raise TimeoutError(f"{url}: not shown")

    def close(self):
        self.process.kill()
        self.process.wait(60)
        os.close(self.commands)
        os.close(self.answers)

    def call(self, method, **params):
        """A command's result."""
        self.number += 1
        command = {"id": self.number, "method": method, "params": params, **self.session}
        os.write(self.commands, json.dumps(command).encode() + b"\0")
        while True:
            message = json.loads(self.message())
            if message.get("id") == self.number:
                return message["result"]

    def message(self):
        """The next message, within a minute."""
        while b"\0" not in self.rest:
            if not select.select([self.answers], [], [], 60)[0]:
                raise TimeoutError("the browser doesn't answer")
            piece = os.read(self.answers, 65536)
            if not piece:
                raise EOFError("the browser ended")
            self.rest += piece
        message, _, self.rest = self.rest.partition(b"\0")
        return message

    def upload(self, data, cut, metadata, front=""):
        """An upload in two pieces, whose second begins where HEAD says: its text. The gateway is at the page's own
        origin, or at another one."""
        words = json.dumps([front, base64.b64encode(data).decode(), cut, metadata])
        return base64.b64decode(self.value(f"{UPLOAD}(...{words})"))

    def value(self, script):
        """What a script comes to, None where that is undefined."""
        result = self.call("Runtime.evaluate", expression=script, awaitPromise=True, returnByValue=True)
        if "exceptionDetails" in result:
            raise RuntimeError(result["exceptionDetails"])
        return result["result"].get("value")
