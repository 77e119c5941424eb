"""A browser for tests: Chromium without a window, driven by its DevTools protocol over a websocket."""

import base64
import contextlib
import json
import os
import re
import shutil
import socket
import struct
import subprocess
import tempfile
import time
import urllib.request

CHROMIUM = shutil.which("chromium") or shutil.which("chromium-browser") or shutil.which("google-chrome")
SECONDS = 60


class Socket:
    """The client's end of a websocket: texts, each in one frame."""

    def __init__(self, address):
        host, port, path = re.match(r"ws://([^:/]+):(\d+)(/.*)", address).groups()
        self.stream = socket.create_connection((host, int(port)), SECONDS)
        key = base64.b64encode(os.urandom(16)).decode()
        head = f"GET {path} HTTP/1.1\r\nHost: {host}:{port}\r\nUpgrade: websocket\r\nConnection: Upgrade\r\nSec-WebSocket-Key: {key}\r\n"
        self.stream.sendall(f"{head}Sec-WebSocket-Version: 13\r\n\r\n".encode())
        self.bytes = b""
        while b"\r\n\r\n" not in self.bytes:
            self.bytes += self.stream.recv(65536)
        self.bytes = self.bytes.split(b"\r\n\r\n", 1)[1]

    def send(self, text):
        data, mask = text.encode(), os.urandom(4)
        size = bytes([0x80 | len(data)]) if len(data) < 126 else bytes([0xFE]) + struct.pack(">H", len(data)) if len(data) < 65536 else (
            bytes([0xFF]) + struct.pack(">Q", len(data)))
        self.stream.sendall(b"\x81" + size + mask + bytes(it ^ mask[at % 4] for at, it in enumerate(data)))

    def take(self, count):
        while len(self.bytes) < count:
            part = self.stream.recv(1 << 20)
            if not part:
                raise EOFError("the browser ended")
            self.bytes += part
        found, self.bytes = self.bytes[:count], self.bytes[count:]
        return found

    def receive(self):
        text = b""
        while True:
            first, size = self.take(2)
            size &= 0x7F
            size = struct.unpack(">H", self.take(2))[0] if size == 126 else struct.unpack(">Q", self.take(8))[0] if size == 127 else size
            text += self.take(size)
            if first & 0x80:
                return text.decode()


class Browser:
    """A browser with one page."""

    def __init__(self, *flags):
        self.room = tempfile.TemporaryDirectory()
        words = [CHROMIUM, "--headless", "--no-sandbox", "--disable-gpu", "--hide-scrollbars", "--remote-debugging-port=0",
                 "--remote-allow-origins=*", f"--user-data-dir={self.room.name}", "--window-size=1200,1600", *flags, "about:blank"]
        self.run = subprocess.Popen(words, stdout=subprocess.DEVNULL, stderr=subprocess.DEVNULL, start_new_session=True)
        self.socket, self.count, self.events = Socket(self.address()), 0, []
        for part in ("Page", "Runtime", "Network", "Log"):
            self.call(f"{part}.enable")
        self.call("Performance.enable", timeDomain="threadTicks")

    def address(self):
        """The page's websocket; the port stands in a file that the browser writes."""
        end = time.monotonic() + SECONDS
        while time.monotonic() < end:
            try:
                with open(os.path.join(self.room.name, "DevToolsActivePort"), encoding="ascii") as file:
                    port = file.readline().strip()
                with urllib.request.urlopen(f"http://127.0.0.1:{port}/json", timeout=10) as answer:
                    return next(it["webSocketDebuggerUrl"] for it in json.load(answer) if it["type"] == "page")
            except (OSError, ValueError, StopIteration):
                time.sleep(0.1)
        raise TimeoutError("the browser doesn't answer")

    def call(self, method, **parameters):
        """What a command of the protocol answers."""
        self.count += 1
        self.socket.send(json.dumps({"id": self.count, "method": method, "params": parameters}))
        while True:
            found = json.loads(self.socket.receive())
            if found.get("id") == self.count:
                if "error" in found:
                    raise ValueError(f"{method}: {found['error']}")
                return found["result"]
            self.events.append(found)

    def value(self, text):
        """The value of an expression in the page."""
        found = self.call("Runtime.evaluate", expression=text, returnByValue=True, awaitPromise=True)
        if "exceptionDetails" in found:
            raise ValueError(found["exceptionDetails"]["exception"].get("description", text))
        return found["result"].get("value")

    def until(self, text):
        end = time.monotonic() + SECONDS
        while time.monotonic() < end:
            try:
                if self.value(text):
                    return
            except ValueError:
                pass  # between two pages
            time.sleep(0.05)
        raise TimeoutError(f"it never is so: {text}")

    def open(self, path, address=""):
        self.call("Page.navigate", url="about:blank")
        self.events = []
        self.call("Page.navigate", url=f"file://{path}{address}")
        self.until("document.documentElement.dataset.ready")

    def busy(self):
        """The seconds of a processor that the page's main thread has taken, whatever else the machine does."""
        return next(it["value"] for it in self.call("Performance.getMetrics")["metrics"] if it["name"] == "TaskDuration")

    def press(self, key, code=0, text=None):
        """Presses a key, in the element that has the focus."""
        more = {"text": text} if text else {}
        self.call("Input.dispatchKeyEvent", type="keyDown", key=key, code=key, windowsVirtualKeyCode=code, **more)
        self.call("Input.dispatchKeyEvent", type="keyUp", key=key, code=key, windowsVirtualKeyCode=code)

    def faults(self):
        """What the page threw or told as an error."""
        named = ("Runtime.exceptionThrown", "Log.entryAdded")
        return [it["params"] for it in self.events if it["method"] in named and it["params"].get("entry", {}).get("level", "error") == "error"]

    def asked(self):
        """What the page loaded."""
        return [it["params"]["request"]["url"] for it in self.events if it["method"] == "Network.requestWillBeSent"]

    def picture(self, path, height=1600, width=1200):
        self.call("Emulation.setDeviceMetricsOverride", width=width, height=height, deviceScaleFactor=1, mobile=False)
        with open(path, "wb") as file:
            file.write(base64.b64decode(self.call("Page.captureScreenshot")["data"]))

    def names(self):
        """The accessibility tree: roles with names, of what isn't ignored."""
        nodes = self.call("Accessibility.getFullAXTree")["nodes"]
        return [(it["role"]["value"], it.get("name", {}).get("value", "")) for it in nodes if not it.get("ignored")]

    def close(self):
        self.run.kill()
        self.run.wait()
        shutil.rmtree(self.room.name, ignore_errors=True)  # its children may write for a moment still
        with contextlib.suppress(OSError):
            self.room.cleanup()
