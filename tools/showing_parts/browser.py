"""A browser without a window, by its driver and the WebDriver protocol (W3C)."""
import base64
import json
import os
import re
import subprocess
import urllib.request

ELEMENT = "element-6066-11e4-a52e-4f735466cecf"
KEYS = {"ArrowDown": "\ue015", "ArrowUp": "\ue013", "Enter": "\ue007", "Escape": "\ue00c"}
WORDS = ["--headless=new", "--no-sandbox", "--disable-gpu", "--window-size=1100,1000", "--hide-scrollbars", "--disable-background-networking"]


class Browser:
    """One session of headless Chromium."""

    def __init__(self, driver, chromium, folder):
        self.driver = subprocess.Popen([driver, "--port=0"], stdout=subprocess.PIPE, stderr=subprocess.DEVNULL, text=True)
        for line in self.driver.stdout:
            found = re.search(r"successfully on port (\d+)", line)
            if found:
                break
        self.at = f"http://127.0.0.1:{found[1]}"
        options = {"binary": chromium, "args": [*WORDS, f"--user-data-dir={os.path.join(folder, 'profile')}"],
                   "prefs": {"download.default_directory": folder}}
        wanted = {"browserName": "chrome", "goog:chromeOptions": options, "goog:loggingPrefs": {"performance": "ALL", "browser": "ALL"}}
        self.session = self.asked("POST", "/session", {"capabilities": {"alwaysMatch": wanted}})["sessionId"]

    def asked(self, method, path, body=None):
        """What the driver answers."""
        data = None if body is None else json.dumps(body).encode()
        request = urllib.request.Request(self.at + path, data, {"Content-Type": "application/json"}, method=method)
        with urllib.request.urlopen(request, timeout=60) as answer:
            return json.load(answer)["value"]

    def post(self, path, **body):
        return self.asked("POST", f"/session/{self.session}/{path}", body)

    def open(self, address):
        """Opens an address anew, also where the page that is shown differs from it by what is behind the # alone."""
        self.post("url", url="about:blank")
        self.post("url", url=address)

    def value(self, script):
        """The value of a script's `return`."""
        return self.post("execute/sync", script=script, args=[])

    def click(self, selector):
        """Clicks where the element stands, as a person does."""
        element = self.post("element", using="css selector", value=selector)[ELEMENT]
        self.post(f"element/{element}/click")

    def press(self, key):
        keys = [{"type": "keyDown", "value": KEYS[key]}, {"type": "keyUp", "value": KEYS[key]}]
        self.post("actions", actions=[{"type": "key", "id": "keys", "actions": keys}])

    def log(self, kind):
        return self.post("se/log", type=kind)

    def picture(self, file):
        shown = self.asked("GET", f"/session/{self.session}/screenshot")
        with open(file, "wb") as picture:
            picture.write(base64.b64decode(shown))

    def prefer(self, scheme):
        """Shows pages as who prefers light or dark colours sees them."""
        feature = [{"name": "prefers-color-scheme", "value": scheme}]
        self.post("goog/cdp/execute", cmd="Emulation.setEmulatedMedia", params={"features": feature})

    def close(self):
        try:
            self.asked("DELETE", f"/session/{self.session}")
        finally:
            self.driver.terminate()
