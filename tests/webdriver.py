"""A browser that a test drives: Chromium without a window, by the WebDriver protocol, which is plain HTTP."""
import base64
import http.client
import json
import os
import shutil
import socket
import subprocess
import tempfile
import time

ELEMENT = "element-6066-11e4-a52e-4f735466cecf"
KEYS = {"ArrowLeft": "\uE012", "ArrowUp": "\uE013", "ArrowRight": "\uE014", "ArrowDown": "\uE015", "Home": "\uE011",
        "End": "\uE010", "PageUp": "\uE00E", "PageDown": "\uE00F", "Enter": "\uE007", "Tab": "\uE004",
        "Escape": "\uE00C", "Space": " "}
# milliseconds, on a machine that others keep busy
PATIENCE = 240_000


def install() -> bool:
    """Whether Chromium and its driver are there; where they are not, and this is root on Debian, they are installed."""
    if shutil.which("chromium") and shutil.which("chromedriver"):
        return True
    if os.geteuid() != 0 or not shutil.which("apt-get"):
        return False
    quiet = {"stdout": subprocess.DEVNULL, "stderr": subprocess.DEVNULL, "check": False}
    env = {**os.environ, "DEBIAN_FRONTEND": "noninteractive"}
    lock = ["-o", "DPkg::Lock::Timeout=120"]
    subprocess.run(["apt-get", "update"], env=env, **quiet)
    subprocess.run(["apt-get", *lock, "install", "-y", "--no-install-recommends", "chromium", "chromium-driver"],
        env=env, **quiet)
    return bool(shutil.which("chromium") and shutil.which("chromedriver"))


class Browser:
    """A browser with one window of a size in points; dark or light. If it waits for a page, that is loaded when `open`
    returns."""

    def __init__(self, width: int = 1280, height: int = 900, dark: bool = False, waits: bool = True) -> None:
        self.room = tempfile.mkdtemp(prefix="browser")
        with socket.socket() as free:
            free.bind(("127.0.0.1", 0))
            self.port = free.getsockname()[1]
        self.driver = subprocess.Popen(["chromedriver", f"--port={self.port}"], stdout=subprocess.DEVNULL,
                                       stderr=subprocess.DEVNULL)
        words = ["--headless=new", "--no-sandbox", "--disable-gpu", "--disable-dev-shm-usage", "--hide-scrollbars",
                 f"--user-data-dir={self.room}", f"--window-size={width},{height}", "--force-device-scale-factor=1"]
        wanted = {"alwaysMatch": {"pageLoadStrategy": "normal" if waits else "none",
                                  "goog:chromeOptions": {"args": words, "binary": shutil.which("chromium")},
                                  "goog:loggingPrefs": {"browser": "ALL"}, "timeouts": {"script": PATIENCE}}}
        self.session = None
        self.wait_for_driver()
        self.session = self.call("POST", "/session", {"capabilities": wanted})["sessionId"]
        self.scheme(dark)
        self.size(width, height)

    def wait_for_driver(self) -> None:
        for _ in range(200):
            try:
                if self.call("GET", "/status")["ready"]:
                    return
            except OSError:
                pass
            time.sleep(0.05)
        raise RuntimeError("chromedriver does not answer")

    def call(self, method: str, path: str, what=None):
        """A call of the protocol: its value."""
        connection = http.client.HTTPConnection("127.0.0.1", self.port, timeout=300)
        path = path if self.session is None else f"/session/{self.session}{path}"
        body = None if method in ("GET", "DELETE") else json.dumps(what or {})
        connection.request(method, path, body, {"Content-Type": "application/json"})
        answer = json.loads(connection.getresponse().read())
        connection.close()
        value = answer["value"]
        if isinstance(value, dict) and "error" in value:
            raise RuntimeError(f"{value['error']}: {value['message'].splitlines()[0]}")
        return value

    def command(self, name: str, **what):
        """A command of the browser's own protocol."""
        return self.call("POST", "/goog/cdp/execute", {"cmd": name, "params": what})

    def scheme(self, dark: bool) -> None:
        features = [{"name": "prefers-color-scheme", "value": "dark" if dark else "light"}]
        self.command("Emulation.setEmulatedMedia", features=features)

    def size(self, width: int, height: int) -> None:
        self.command("Emulation.setDeviceMetricsOverride", width=width, height=height, deviceScaleFactor=1,
            mobile=False)

    def open(self, file) -> None:
        self.call("POST", "/url", {"url": f"file://{file}"})

    def run(self, script: str, *words):
        """Runs a script in the page, as a function of these words: what it returns."""
        return self.call("POST", "/execute/sync", {"script": script, "args": list(words)})

    def find(self, selector: str) -> str:
        return self.call("POST", "/element", {"using": "css selector", "value": selector})[ELEMENT]

    def click(self, selector: str) -> None:
        self.call("POST", f"/element/{self.find(selector)}/click")

    def press(self, *keys: str) -> None:
        """Presses keys where the focus is, one after another."""
        typed = []
        for key in keys:
            value = KEYS.get(key, key)
            typed += [{"type": "keyDown", "value": value}, {"type": "keyUp", "value": value}]
        self.call("POST", "/actions", {"actions": [{"type": "key", "id": "keys", "actions": typed}]})

    def told(self) -> list[str]:
        """What the page wrote on its console since the last time, and what it was refused."""
        return [entry["message"] for entry in self.call("POST", "/se/log", {"type": "browser"})]

    def picture(self, file, whole: bool = False) -> None:
        if whole:
            size = self.command("Page.getLayoutMetrics")["cssContentSize"]
            clip = {"x": 0, "y": 0, "width": size["width"], "height": size["height"], "scale": 1}
            data = self.command("Page.captureScreenshot", format="png", captureBeyondViewport=True, clip=clip)["data"]
        else:
            data = self.call("GET", "/screenshot")
        with open(file, "wb") as picture:
            picture.write(base64.b64decode(data))

    def close(self) -> None:
        try:
            self.call("DELETE", "")
        finally:
            self.driver.terminate()
            self.driver.wait()
            shutil.rmtree(self.room, ignore_errors=True)
