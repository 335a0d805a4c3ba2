"""Drives a Chromium without a window, by its driver: real clicks, and what the page shows then. It needs Debian's `chromium` and
`chromium-driver`, and Python's standard library alone."""
import http.client
import json
import os
import re
import shutil
import signal
import subprocess

ELEMENT = "element-6066-11e4-a52e-4f735466cecf"
# No name is looked up but that of this machine, so a page that needs the network lacks something.
WORDS = [
    "--headless=new", "--no-sandbox", "--disable-gpu", "--disable-dev-shm-usage", "--no-first-run", "--disable-background-networking",
    "--hide-scrollbars", "--window-size=1000,1260", "--host-resolver-rules=MAP * ~NOTFOUND, EXCLUDE 127.0.0.1",
]


def is_there():
    return bool(shutil.which("chromium") and shutil.which("chromedriver"))


class Browser:
    """A browser that is kept open in a `with`."""

    def __enter__(self):
        self.driver = subprocess.Popen(["chromedriver", "--port=0"], stdin=subprocess.DEVNULL, stdout=subprocess.PIPE, stderr=subprocess.DEVNULL)
        port = next(int(found[1]) for line in self.driver.stdout if (found := re.search(rb"started successfully on port (\d+)", line)))
        self.http = http.client.HTTPConnection("127.0.0.1", port, timeout=300)
        options = {"binary": shutil.which("chromium"), "args": WORDS}
        wanted = {"browserName": "chrome", "goog:chromeOptions": options, "goog:loggingPrefs": {"browser": "ALL"}}
        self.session = ""
        begun = self.call("POST", "/session", {"capabilities": {"alwaysMatch": {**wanted, "timeouts": {"script": 120_000}}}})
        self.session, self.process = f"/session/{begun['sessionId']}", begun["capabilities"].get("goog:processID")
        return self

    def __exit__(self, *_):
        """Ends the browser and its driver, also where a call before got no answer."""
        self.http.close()
        try:
            self.call("DELETE", "")
        except (OSError, http.client.HTTPException, AssertionError):
            if self.process:
                os.kill(self.process, signal.SIGKILL)
        self.http.close()
        self.driver.terminate()
        self.driver.wait()
        self.driver.stdout.close()

    def call(self, method, path, body=None):
        """Returns what the driver answers."""
        self.http.request(method, self.session + path, None if body is None else json.dumps(body), {"Content-Type": "application/json"})
        value = json.loads(self.http.getresponse().read())["value"]
        if isinstance(value, dict) and "error" in value:
            raise AssertionError(f"{method} {path}: {value['message'].splitlines()[0]}")
        return value

    def open(self, address):
        self.call("POST", "/url", {"url": address})

    def element(self, xpath):
        """Returns the address of the first element of a path."""
        return "/element/" + self.call("POST", "/element", {"using": "xpath", "value": xpath})[ELEMENT]

    def click(self, xpath):
        self.call("POST", self.element(xpath) + "/click", {})

    def text(self, xpath):
        return self.call("GET", self.element(xpath) + "/text")

    def write(self, xpath, text):
        """Puts a text in the place of that of a field."""
        field = self.element(xpath)
        self.call("POST", field + "/clear", {})
        self.call("POST", field + "/value", {"text": text})

    def run(self, script):
        """Returns what a script gives on the page."""
        return self.call("POST", "/execute/sync", {"script": script, "args": []})

    def complaints(self):
        """Returns what the browser complained of since the last call."""
        return [entry["message"] for entry in self.call("POST", "/se/log", {"type": "browser"}) if "favicon" not in entry["message"]]

    def command(self, name, words):
        """Runs a command of the protocol of the browser's own tools."""
        return self.call("POST", "/goog/cdp/execute", {"cmd": name, "params": words})
