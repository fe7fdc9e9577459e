"""Headless Chromium, driven by a pipe: pages are opened, files dropped, and all requests, messages and errors kept."""

import json
import os
import shutil
import subprocess
import tempfile
import time

CHROMIUM = next((path for path in map(shutil.which, ("chromium", "chromium-browser", "google-chrome")) if path), None)
WORDS = [
    "--headless=new",
    "--no-sandbox",
    "--disable-gpu",
    "--disable-dev-shm-usage",
    "--no-first-run",
    "--remote-debugging-pipe",
    "--host-resolver-rules=MAP * ~NOTFOUND",
]


class Browser:
    """One Chromium with one page."""

    def __init__(self, *words):
        self.folder = tempfile.mkdtemp()
        self.last, self.events, self.rest = 0, [], b""
        here_reads, there_writes = os.pipe()
        there_reads, here_writes = os.pipe()
        self.reads, self.writes = here_reads, here_writes
        starter = f'exec "$0" "$@" 3<&{there_reads} 4>&{there_writes}'
        chromium = [
            CHROMIUM,
            *WORDS,
            f"--user-data-dir={self.folder}",
            "--window-size=1100,1600",
            *words,
            "about:blank",
        ]
        self.process = subprocess.Popen(
            ["bash", "-c", starter, *chromium],
            pass_fds=(there_reads, there_writes),
            stdout=subprocess.DEVNULL,
            stderr=subprocess.DEVNULL,
        )
        os.close(there_reads)
        os.close(there_writes)
        self.session = None
        target = self.call("Target.createTarget", url="about:blank")["targetId"]
        self.session = self.call("Target.attachToTarget", targetId=target, flatten=True)["sessionId"]
        for domain in ("Page", "Runtime", "Log", "Network", "DOM"):
            self.call(f"{domain}.enable")

    def __enter__(self):
        return self

    def __exit__(self, *_):
        self.process.terminate()
        self.process.wait()
        os.close(self.reads)
        os.close(self.writes)
        shutil.rmtree(self.folder, ignore_errors=True)

    def call(self, method, **words):
        self.last += 1
        message = {
            "id": self.last,
            "method": method,
            "params": words,
            **({"sessionId": self.session} if self.session else {}),
        }
        os.write(self.writes, json.dumps(message).encode() + b"\0")
        while True:
            answer = self.next()
            if answer.get("id") == self.last:
                if "error" in answer:
                    raise RuntimeError(f"{method}: {answer['error']}")
                return answer["result"]
            self.events.append(answer)

    def next(self):
        while b"\0" not in self.rest:
            part = os.read(self.reads, 1 << 16)
            if not part:
                raise RuntimeError("Chromium has ended")
            self.rest += part
        message, self.rest = self.rest.split(b"\0", 1)
        return json.loads(message)

    def open(self, path, ready):
        self.call("Page.navigate", url="file://" + path)
        self.wait(ready)

    def value(self, script):
        """What a script of the page gives."""
        answer = self.call("Runtime.evaluate", expression=script, awaitPromise=True, returnByValue=True)
        if "exceptionDetails" in answer:
            raise RuntimeError(f"{script}: {answer['exceptionDetails']}")
        return answer["result"].get("value")

    def wait(self, script, seconds=120):
        """Waits until a script gives something true, which is the answer."""
        end = time.monotonic() + seconds
        while time.monotonic() < end:
            found = self.value(script)
            if found:
                return found
            time.sleep(0.05)
        raise RuntimeError(
            f"not true in {seconds} s: {script}; the page: {self.value('document.body.innerText')[:500]}"
        )

    def drop(self, selector, paths):
        """Drops files or folders on an element."""
        box = self.value(
            f"(() => {{ const r = document.querySelector({selector!r}).getBoundingClientRect(); return [r.x + r.width /"
            " 2, r.y + r.height / 2]; })()"
        )
        data = {"items": [], "files": [os.path.realpath(path) for path in paths], "dragOperationsMask": 1}
        for kind in ("dragEnter", "dragOver", "drop"):
            self.call("Input.dispatchDragEvent", type=kind, x=box[0], y=box[1], data=data)

    def choose(self, selector, paths):
        root = self.call("DOM.getDocument")["root"]["nodeId"]
        node = self.call("DOM.querySelector", nodeId=root, selector=selector)["nodeId"]
        self.call("DOM.setFileInputFiles", nodeId=node, files=[os.path.realpath(path) for path in paths])

    def requests(self):
        return [
            event["params"]["request"]["url"] for event in self.events if event["method"] == "Network.requestWillBeSent"
        ]

    def errors(self):
        logged = [
            event["params"]["entry"]["text"]
            for event in self.events
            if event["method"] == "Log.entryAdded" and event["params"]["entry"]["level"] == "error"
        ]
        return logged + [
            json.dumps(event["params"]["exceptionDetails"])
            for event in self.events
            if event["method"] == "Runtime.exceptionThrown"
        ]
