"""Firefox without a window, by WebDriver BiDi: JSON over a WebSocket, for which it needs no driver of its own."""
import base64
import json
import os
import shutil
import socket
import struct
import subprocess
import tempfile
import time

from webdriver import KEYS

SECONDS = 120
# frames of a WebSocket: a text, a part behind others, the end, a question whether one is there, and its answer
TEXT, MORE, END, PING, PONG = 1, 0, 8, 9, 10
# levels of what is written on the console that a test is told of
TROUBLE = {"warn", "error"}


def find() -> str | None:
    """Firefox's program, where it is there; where it is not, and this is root on Debian, it is installed."""
    names = ("firefox-esr", "firefox")
    if not any(map(shutil.which, names)) and os.geteuid() == 0 and shutil.which("apt-get"):
        subprocess.run(["apt-get", "-o", "DPkg::Lock::Timeout=120", "install", "-y", "--no-install-recommends", "firefox-esr"],
                       env={**os.environ, "DEBIAN_FRONTEND": "noninteractive"}, stdout=subprocess.DEVNULL,
                       stderr=subprocess.DEVNULL, check=False)
    return next(filter(None, map(shutil.which, names)), None)


class WebSocket:
    """A WebSocket of a server on this machine, for texts alone."""

    def __init__(self, port: int, path: str) -> None:
        self.socket = socket.create_connection(("127.0.0.1", port), timeout=SECONDS)
        key = base64.b64encode(os.urandom(16)).decode()
        self.socket.sendall(f"GET {path} HTTP/1.1\r\nHost: 127.0.0.1:{port}\r\nUpgrade: websocket\r\nConnection: Upgrade\r\n"
                            f"Sec-WebSocket-Key: {key}\r\nSec-WebSocket-Version: 13\r\n\r\n".encode())
        self.file = self.socket.makefile("rb")
        status = self.file.readline()
        while self.file.readline() not in (b"\r\n", b""):
            pass
        if b" 101 " not in status:
            raise OSError(f"it answers {status!r}")

    def send(self, text: str, kind: int = TEXT) -> None:
        octets, mask = text.encode(), os.urandom(4)
        size = len(octets)
        length = struct.pack(">B", 0x80 | size) if size < 126 else struct.pack(">BH", 0xFE, size) if size < 65536 \
            else struct.pack(">BQ", 0xFF, size)
        # (what a client sends is masked)
        whole = (mask * (size // 4 + 1))[:size]
        masked = (int.from_bytes(octets, "big") ^ int.from_bytes(whole, "big")).to_bytes(size, "big")
        self.socket.sendall(bytes([0x80 | kind]) + length + mask + masked)

    def receive(self) -> str:
        parts = []
        while True:
            front = self.file.read(2)
            if len(front) < 2:
                raise OSError("Firefox is gone")
            first, second = front
            size = second & 0x7F
            if size >= 126:
                form = ">H" if size == 126 else ">Q"
                size = struct.unpack(form, self.file.read(struct.calcsize(form)))[0]
            octets, kind = self.file.read(size), first & 0x0F
            if kind == END:
                raise OSError("Firefox ended the connection")
            if kind == PING:
                self.send(octets.decode(), PONG)
            elif kind in (TEXT, MORE):
                parts.append(octets)
                if first & 0x80:
                    return b"".join(parts).decode()

    def close(self) -> None:
        self.file.close()
        self.socket.close()


class Firefox:
    """Firefox with one window: what tests of the page ask of webdriver.Browser."""

    def __init__(self, width: int = 1280, height: int = 900) -> None:
        self.room = tempfile.mkdtemp(prefix="firefox")
        with socket.socket() as free:
            free.bind(("127.0.0.1", 0))
            port = free.getsockname()[1]
        self.program = subprocess.Popen([find(), "--headless", "--no-remote", "--profile", self.room,
                                         f"--remote-debugging-port={port}"], stdout=subprocess.DEVNULL,
                                        stderr=subprocess.DEVNULL, env={**os.environ, "HOME": self.room})
        self.count, self.entries = 0, []
        self.wire = self.reach(port)
        self.call("session.new", capabilities={})
        self.call("session.subscribe", events=["log.entryAdded"])
        self.context = self.call("browsingContext.getTree")["contexts"][0]["context"]
        self.call("browsingContext.setViewport", context=self.context, viewport={"width": width, "height": height})

    def reach(self, port: int) -> WebSocket:
        for _ in range(10 * SECONDS):
            try:
                return WebSocket(port, "/session")
            except OSError:
                time.sleep(0.1)
        raise RuntimeError("Firefox does not answer")

    def call(self, method: str, **what):
        """A command of the protocol: its result."""
        self.count += 1
        self.wire.send(json.dumps({"id": self.count, "method": method, "params": what}))
        while True:
            answer = json.loads(self.wire.receive())
            if answer.get("method") == "log.entryAdded":
                self.entries.append(answer["params"])
            elif answer.get("id") == self.count:
                if answer["type"] == "error":
                    raise RuntimeError(f"{method}: {answer['error']}: {answer['message']}")
                return answer["result"]

    def open(self, file) -> None:
        """Opens a file, and waits until it is the window's document, whole.

        Firefox says that a navigation is complete also where the page before it has just changed its own fragment. So the
        old document is marked, and the new one has no mark."""
        url = f"file://{file}"
        was = self.run("window.isLeft = true; return location.href")
        stays = "#" in url and was.partition("#")[0] == url.partition("#")[0]
        self.call("browsingContext.navigate", context=self.context, url=url, wait="complete")
        for _ in range(10 * SECONDS):
            if self.has_come(stays):
                return
            time.sleep(0.1)
        raise OSError(f"{url} does not come to its end")

    def has_come(self, stays: bool) -> bool:
        try:
            return self.run("return document.readyState === 'complete' && (arguments[0] || !window.isLeft)", stays)
        except RuntimeError:  # (the document went while it was asked)
            return False

    def run(self, script: str, *words):
        """Runs a script in the page, as a function of these words: what it returns."""
        done = self.call("script.callFunction", target={"context": self.context}, awaitPromise=True, functionDeclaration=(
            f"async (words) => JSON.stringify(await (function () {{ {script} }})(...JSON.parse(words)) ?? null)"),
            arguments=[{"type": "string", "value": json.dumps(words)}])
        if done["type"] != "success":
            raise RuntimeError(done["exceptionDetails"]["text"])
        return json.loads(done["result"]["value"])

    def press(self, *keys: str) -> None:
        typed = []
        for key in keys:
            value = KEYS.get(key, key)
            typed += [{"type": "keyDown", "value": value}, {"type": "keyUp", "value": value}]
        self.call("input.performActions", context=self.context, actions=[{"type": "key", "id": "keys", "actions": typed}])

    def told(self) -> list[str]:
        """What the page wrote on its console since the last time."""
        told = [entry["text"] or "" for entry in self.entries if entry["level"] in TROUBLE]
        self.entries.clear()
        return told

    def close(self) -> None:
        try:
            self.call("browser.close")
        except (OSError, RuntimeError, ValueError):
            self.program.terminate()
        finally:
            self.wire.close()
            self.program.wait()
            shutil.rmtree(self.room, ignore_errors=True)
