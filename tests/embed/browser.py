"""Headless Chromium, asked over two pipes by its DevTools protocol: each message is JSON with a zero byte behind it."""

import json
import os
import shutil
import subprocess
import tempfile

MISSING = "Chromium is missing: as root, `apt-get install -y chromium` installs Debian's"


def is_there():
    return shutil.which("chromium") is not None


class Browser:
    """A page of so many pixels. It ends with the block of a `with`."""

    def __init__(self, width=1000, height=640):
        self.profile = tempfile.TemporaryDirectory(ignore_cleanup_errors=True)
        asked, asking = os.pipe()
        answering, answered = os.pipe()
        command = [
            "chromium", "--headless=new", "--disable-gpu", "--hide-scrollbars", "--no-first-run", "--remote-debugging-pipe",
            f"--user-data-dir={self.profile.name}", f"--window-size={width},{height}",
        ]
        if os.geteuid() == 0:
            command.append("--no-sandbox")
        # It reads from the descriptor 3 and writes to 4.
        shell = ["bash", "-c", f'exec "$@" 3<&{asked} 4>&{answered}', "bash", *command]
        quiet = {"stdin": subprocess.DEVNULL, "stdout": subprocess.DEVNULL, "stderr": subprocess.DEVNULL}
        self.process = subprocess.Popen(shell, pass_fds=(asked, answered), **quiet)
        os.close(asked)
        os.close(answered)
        self.asking, self.answering, self.left, self.count = open(asking, "wb", buffering=0), answering, b"", 0
        self.session = None
        target = self("Target.createTarget", url="about:blank")["targetId"]
        self.session = self("Target.attachToTarget", targetId=target, flatten=True)["sessionId"]
        self("Page.enable")

    def __enter__(self):
        return self

    def __exit__(self, *_):
        self.asking.close()
        os.close(self.answering)
        self.process.terminate()
        self.process.wait()
        self.profile.cleanup()

    def __call__(self, method, **words):
        """Asks, and waits for the answer to just that; what is told beside it is passed over."""
        self.count += 1
        message = {"id": self.count, "method": method, "params": words}
        if self.session:
            message["sessionId"] = self.session
        self.asking.write(json.dumps(message).encode() + b"\0")
        while (answer := self.read()).get("id") != self.count:
            pass
        if "error" in answer:
            raise RuntimeError(f"{method}: {answer['error']['message']}")
        return answer["result"]

    def read(self):
        while b"\0" not in self.left:
            more = os.read(self.answering, 1 << 16)
            if not more:
                raise RuntimeError("Chromium has ended")
            self.left += more
        message, _, self.left = self.left.partition(b"\0")
        return json.loads(message)

    def go(self, address):
        self("Page.navigate", url=address)
        self.wait("document.readyState === 'complete'")

    def value(self, expression):
        """What an expression of the page gives; a promise is waited for."""
        answer = self("Runtime.evaluate", expression=expression, awaitPromise=True, returnByValue=True)
        if "exceptionDetails" in answer:
            raise RuntimeError(f"{expression}: {answer['exceptionDetails']}")
        return answer["result"].get("value")

    def wait(self, condition):
        """Waits for ten seconds at most until the condition holds in the page."""
        held = f"""new Promise(async done => {{
            for (let left = 1000; left && !({condition}); left--) await new Promise(it => setTimeout(it, 10));
            done({condition});
        }})"""
        if not self.value(held):
            raise RuntimeError(f"in ten seconds it was not so that {condition}")

    def type(self, text):
        """Presses a key for each character."""
        for it in text:
            key = {"\n": "\r"}.get(it, it)
            self("Input.dispatchKeyEvent", type="keyDown", text=key, key="Enter" if it == "\n" else it)
            self("Input.dispatchKeyEvent", type="keyUp", key="Enter" if it == "\n" else it)

    def erase(self, count):
        """Presses Backspace so many times."""
        for _ in range(count):
            words = {"key": "Backspace", "code": "Backspace", "windowsVirtualKeyCode": 8}
            self("Input.dispatchKeyEvent", type="rawKeyDown", commands=["deleteBackward"], **words)
            self("Input.dispatchKeyEvent", type="keyUp", **words)
