"""A static server for out/web, and headless Chromium (Debian's package chromium) that is asked by its own protocol, over a pipe."""
import base64
import fcntl
import http.server
import json
import os
import pathlib
import shutil
import signal
import subprocess
import tempfile
import threading
import urllib.parse

TOP = pathlib.Path(__file__).resolve().parent.parent.parent
POLICY = "default-src 'self'; script-src 'self' 'wasm-unsafe-eval'"
KINDS = {
    ".html": "text/html",
    ".mjs": "text/javascript",
    ".js": "text/javascript",
    ".css": "text/css",
    ".svg": "image/svg+xml",
    ".wasm": "application/wasm",
}


class Server:
    """Serves the page, under its policy as a header too, this folder at /tests/, and files that are added."""

    def __init__(self, page):
        self.files, self.asked = {}, []
        server = self

        class Handler(http.server.BaseHTTPRequestHandler):
            def do_GET(self):
                path = urllib.parse.urlsplit(self.path).path
                server.asked.append(path)
                octets = server.files.get(path)
                if octets is None:
                    folder = TOP / "tests" if path.startswith("/tests/") else page
                    file = (folder / (path.removeprefix("/tests/").lstrip("/") or "index.html")).resolve()
                    if not file.is_relative_to(folder) or not file.is_file():
                        return self.send_error(404)
                    octets = file.read_bytes()
                self.send_response(200)
                self.send_header(
                    "Content-Type",
                    KINDS.get(
                        pathlib.PurePath(path if path != "/" else "index.html").suffix, "application/octet-stream"
                    ),
                )
                self.send_header("Content-Length", str(len(octets)))
                self.send_header("Content-Security-Policy", POLICY)
                self.send_header("Cache-Control", "no-store")
                self.end_headers()
                self.wfile.write(octets)

            def log_message(self, *_):
                pass

        self._server = http.server.ThreadingHTTPServer(("127.0.0.1", 0), Handler)
        threading.Thread(target=self._server.serve_forever, daemon=True).start()
        self.address = f"http://127.0.0.1:{self._server.server_port}/"

    def close(self):
        self._server.shutdown()


class Failed(Exception):
    """The page threw, or did not do in time what was waited for."""


class Browser:
    """Chromium with one page. Its messages are texts of JSON with a NUL after each."""

    def __init__(self, *flags):
        self._room = tempfile.mkdtemp()
        # (not 3 and 4, which these become in the browser)
        (asks, self._to), (self._from, answers) = (
            [fcntl.fcntl(it, fcntl.F_DUPFD_CLOEXEC, 20) for it in os.pipe()] for _ in range(2)
        )
        words = [
            "chromium",
            "--headless=new",
            "--disable-gpu",
            "--remote-debugging-pipe",
            f"--user-data-dir={self._room}",
            "--no-first-run",
            "--force-color-profile=srgb",
            *(["--no-sandbox"] if os.geteuid() == 0 else []),
            *flags,
            "about:blank",
        ]
        begin = f'exec "$@" 3<&{asks} 4>&{answers} {asks}<&- {answers}>&-'
        self._process = subprocess.Popen(
            ["bash", "-c", begin, "bash", *words],
            pass_fds=(asks, answers),
            stdin=subprocess.DEVNULL,
            stdout=subprocess.DEVNULL,
            stderr=subprocess.DEVNULL,
            start_new_session=True,
        )
        os.close(asks)
        os.close(answers)
        self._read, self._number, self._answers, self.events = b"", 0, {}, []
        target = self.ask("Target.createTarget", {"url": "about:blank"}, None)["targetId"]
        self._session = self.ask("Target.attachToTarget", {"targetId": target, "flatten": True}, None)["sessionId"]
        for domain in ("Page", "Runtime", "Log", "DOM"):
            self.ask(f"{domain}.enable")

    def close(self):
        os.killpg(self._process.pid, signal.SIGTERM)
        self._process.wait()
        shutil.rmtree(self._room, ignore_errors=True)

    def _take(self):
        while b"\0" not in self._read:
            piece = os.read(self._from, 1 << 20)
            if not piece:
                raise Failed("the browser ended")
            self._read += piece
        message, self._read = self._read.split(b"\0", 1)
        message = json.loads(message)
        if "id" in message:
            self._answers[message["id"]] = message
        else:
            self.events.append(message)

    def ask(self, method, given=None, session=""):
        self._number += 1
        number = self._number
        message = {"id": number, "method": method, "params": given or {}}
        if session is not None:
            message["sessionId"] = self._session
        os.write(self._to, json.dumps(message).encode() + b"\0")
        while number not in self._answers:
            self._take()
        answer = self._answers.pop(number)
        if "error" in answer:
            raise Failed(f"{method}: {answer['error']['message']}")
        return answer["result"]

    def run(self, script):
        """The value of a script of JavaScript, awaited."""
        answer = self.ask("Runtime.evaluate", {"expression": script, "awaitPromise": True, "returnByValue": True})
        if "exceptionDetails" in answer:
            raise Failed(
                answer["exceptionDetails"].get("exception", {}).get("description", answer["exceptionDetails"]["text"])
            )
        return answer["result"].get("value")

    def go(self, address):
        """Loads a page, anew also where it is there already and only the fragment would change."""
        for it, is_there in (("about:blank", "==="), (address, "!==")):
            self.events.clear()
            self.ask("Page.navigate", {"url": it})
            self.until(f"document.readyState === 'complete' && location.href {is_there} 'about:blank'")

    def until(self, condition, seconds=300):
        """Waits until a condition of the page holds. Returns its value."""
        return self.run(
            f"""new Promise((answer, refuse) => {{
            const end = performance.now() + {1000 * seconds}, look = () => {{
                const found = ({condition});
                if (found) answer(found);
                else if (performance.now() > end) refuse(new Error('in {seconds} s there was no ' + {json.dumps(condition)}));
                else setTimeout(look, 40);
            }};
            look();
        }})"""
        )

    def complaints(self):
        """What the page threw, and what the browser logged as an error, as where the policy is broken."""
        self.run("0")
        found = [
            it["params"]["exceptionDetails"].get("exception", {}).get("description", "thrown")
            for it in self.events
            if it["method"] == "Runtime.exceptionThrown"
        ]
        return found + [
            it["params"]["entry"]["text"]
            for it in self.events
            if it["method"] == "Log.entryAdded" and it["params"]["entry"]["level"] == "error"
        ]

    def size(self, width, height, is_dark=False):
        self.ask(
            "Emulation.setDeviceMetricsOverride",
            {"width": width, "height": height, "deviceScaleFactor": 1, "mobile": width < 600},
        )
        self.ask(
            "Emulation.setEmulatedMedia",
            {"features": [{"name": "prefers-color-scheme", "value": "dark" if is_dark else "light"}]},
        )

    def picture(self, path, whole=True):
        octets = self.ask("Page.captureScreenshot", {"format": "png", "captureBeyondViewport": whole})["data"]
        pathlib.Path(path).write_bytes(base64.b64decode(octets))

    def choose(self, selector, *paths):
        """Gives files to a field of the page."""
        root = self.ask("DOM.getDocument")["root"]["nodeId"]
        node = self.ask("DOM.querySelector", {"nodeId": root, "selector": selector})["nodeId"]
        self.ask("DOM.setFileInputFiles", {"nodeId": node, "files": [str(it) for it in paths]})

    def drop(self, path, x, y):
        """Drops a file on the page, as with a mouse."""
        data = {"items": [], "files": [str(path)], "dragOperationsMask": 1}
        for kind in ("dragEnter", "dragOver", "drop"):
            self.ask("Input.dispatchDragEvent", {"type": kind, "x": x, "y": y, "data": data})

    def key(self, name, code=None, text=""):
        for kind in ("keyDown", "keyUp"):
            self.ask(
                "Input.dispatchKeyEvent",
                {
                    "type": kind,
                    "key": name,
                    "code": code or name,
                    "windowsVirtualKeyCode": {"Tab": 9, "Enter": 13, "ArrowRight": 39, "ArrowLeft": 37, " ": 32}.get(
                        name, 0
                    ),
                    "text": text if kind == "keyDown" else "",
                },
            )
