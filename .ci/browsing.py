"""Headless Chromium by its driver, with what its pages said and asked for: for `.ci/browser`. It is ended by its own driver."""

import base64
import json
import os
import shutil
import sys
import threading
import time
from contextlib import contextmanager
from functools import partial
from http.server import SimpleHTTPRequestHandler, ThreadingHTTPServer
from pathlib import Path
from urllib.parse import urlsplit

SYSTEM = "/usr/bin/python3"

try:
    from selenium import webdriver
    from selenium.common.exceptions import WebDriverException
    from selenium.webdriver.chrome.options import Options
    from selenium.webdriver.chrome.service import Service
    from selenium.webdriver.common.by import By
    from selenium.webdriver.common.keys import Keys
except ImportError:
    if os.path.realpath(sys.executable) != os.path.realpath(SYSTEM) and os.path.exists(SYSTEM):
        os.execv(SYSTEM, [SYSTEM, *sys.argv])
    webdriver = By = Keys = None

    class WebDriverException(Exception):
        """What is not there is never raised."""

from loopback import Wrong, holds, same  # noqa: E402

WORDS = ("--headless=new", "--no-sandbox", "--disable-gpu", "--disable-dev-shm-usage", "--disable-background-networking",
         "--hide-scrollbars", "--window-size=1200,1000", "--disable-background-timer-throttling", "--disable-renderer-backgrounding",
         "--disable-backgrounding-occluded-windows")
SECONDS = 30


def missing():
    """What is not installed of what a browser needs."""
    programs = [name for name in ("chromium", "chromedriver", "caddy", "nginx", "openssl", "curl") if not shutil.which(name)]
    return programs + ([] if webdriver else ["python3-selenium"])


class Browser:
    """A Chromium, and what is done in it."""

    def __init__(self):
        options = Options()
        options.binary_location = shutil.which("chromium")
        for word in WORDS:
            options.add_argument(word)
        # An authority that a test makes is known to nobody; whether its certificates hold is tried by curl.
        options.accept_insecure_certs = True
        options.set_capability("goog:loggingPrefs", {"browser": "ALL", "performance": "ALL"})
        self.driver = webdriver.Chrome(service=Service(shutil.which("chromedriver")), options=options)
        self.driver.set_script_timeout(SECONDS)

    def open(self, address):
        """Goes to an address; what was said and asked for before is forgotten."""
        self.driver.get("about:blank")
        self.said(), self.asked()
        self.driver.get(address)

    @contextmanager
    def tab(self):
        """A further tab, which is in front until the end."""
        first = self.driver.current_window_handle
        self.driver.switch_to.new_window("tab")
        second = self.driver.current_window_handle
        try:
            yield first, second
        finally:
            self.driver.switch_to.window(second)
            self.driver.close()
            self.driver.switch_to.window(first)

    def said(self):
        """The messages of the console since it was last asked."""
        return [entry["message"] for entry in self.driver.get_log("browser")]

    def asked(self):
        """The addresses that the page asked for since it was last asked, without those that it has in itself."""
        events = [json.loads(entry["message"])["message"] for entry in self.driver.get_log("performance")]
        addresses = [it["params"]["request"]["url"] for it in events if it["method"] == "Network.requestWillBeSent"]
        addresses += [it["params"]["url"] for it in events if it["method"] == "Network.webSocketCreated"]
        return [it for it in addresses if urlsplit(it).scheme not in ("data", "about")]

    def run(self, code, *words):
        """What this code of a function's body returns in the page."""
        return self.driver.execute_script(code, *words)

    def called(self, name, *words):
        """What a function of the page gives, which is a promise."""
        code = "const [done, name, ...words] = [arguments[arguments.length - 1], ...Array.from(arguments).slice(0, -1)];" \
               "window[name](...words).then(done, error => done({fault: String(error)}))"
        return self.driver.execute_async_script(code, name, *words)

    def text(self, name):
        """An element's text; none where the page is not there yet."""
        return self.run("return document.getElementById(arguments[0])?.textContent ?? ''", name)

    def field(self, name):
        return self.driver.find_element(By.ID, name)

    def type(self, name, text):
        self.field(name).clear()
        self.field(name).send_keys(text)

    def choose(self, name, text):
        """Chooses the option with this text, as a user would."""
        for option in self.field(name).find_elements(By.TAG_NAME, "option"):
            if option.text == text:
                return option.click()
        raise Wrong(f"{name} has no option {text!r}")

    def wait(self, code, what, seconds=SECONDS):
        """Waits until this code returns what is true, which it gives."""
        end = time.monotonic() + seconds
        while True:
            value = self.run(code)
            if value:
                return value
            holds(time.monotonic() < end, f"within {seconds} seconds not: {what}")
            time.sleep(0.01)

    def wait_text(self, name, text, seconds=SECONDS):
        """Waits until an element has this text in it."""
        end = time.monotonic() + seconds
        while text not in (found := self.text(name)):
            holds(time.monotonic() < end, f"within {seconds} seconds {name} was not {text!r}, but {found!r}")
            time.sleep(0.01)

    @contextmanager
    def shape(self, width, height, is_dark=False):
        """The page at this size, and in the dark theme where that is asked for."""
        theme = [{"name": "prefers-color-scheme", "value": "dark" if is_dark else "light"}]
        self.driver.execute_cdp_cmd("Emulation.setEmulatedMedia", {"features": theme})
        size = {"width": width, "height": height, "deviceScaleFactor": 1, "mobile": width < 600}
        self.driver.execute_cdp_cmd("Emulation.setDeviceMetricsOverride", size)
        try:
            yield
        finally:
            self.driver.execute_cdp_cmd("Emulation.clearDeviceMetricsOverride", {})
            self.driver.execute_cdp_cmd("Emulation.setEmulatedMedia", {"features": []})

    def picture(self, path, height):
        """Keeps what is seen of the page, down to this height."""
        width = self.run("return document.documentElement.clientWidth")
        clip = {"x": 0, "y": 0, "width": width, "height": height, "scale": 1}
        shot = self.driver.execute_cdp_cmd("Page.captureScreenshot", {"format": "png", "clip": clip, "captureBeyondViewport": True})
        Path(path).write_bytes(base64.b64decode(shot["data"]))

    def is_quiet(self, remarks=()):
        """The console has nothing but what has one of these remarks in it."""
        same([it for it in self.said() if not any(remark in it for remark in remarks)], [], "the console")

    def close(self):
        self.driver.quit()


class Files(SimpleHTTPRequestHandler):
    """Serves a folder's files. What is posted is handed to `post` with its path, and answered with the text that it gives."""

    post = staticmethod(lambda path, body: "")
    extensions_map = {**SimpleHTTPRequestHandler.extensions_map, ".js": "text/javascript"}

    def do_POST(self):
        body = self.rfile.read(int(self.headers["Content-Length"] or 0)).decode()
        answer = self.post(self.path, body).encode()
        self.send_response(200)
        self.send_header("Content-Length", str(len(answer)))
        self.end_headers()
        self.wfile.write(answer)

    def log_message(self, *_):
        pass


@contextmanager
def served(folder, post=None):
    """The address at which this folder is served."""
    handler = type("Posted", (Files,), {"post": staticmethod(post)}) if post else Files
    server = ThreadingHTTPServer(("127.0.0.1", 0), partial(handler, directory=str(folder)))
    threading.Thread(target=server.serve_forever, daemon=True).start()
    try:
        yield f"http://127.0.0.1:{server.server_port}"
    finally:
        server.shutdown()
        server.server_close()
