"""Two browsers without a window, and the same few calls for both: Chromium by Debian's chromium-driver and selenium,
Firefox by its Marionette port, since Debian has no geckodriver."""

import base64
import json
import shutil
import socket
import subprocess
import tempfile
import time
from pathlib import Path

TAB = "\ue004"


class Browser:
    """What tests do in a page. A script is the body of a function of JavaScript."""

    def wait(self, script, *words, seconds=60):
        """Waits until a script returns a value that counts as true, and returns it."""
        end = time.monotonic() + seconds
        while not (value := self.run(script, *words)):
            if time.monotonic() > end:
                raise TimeoutError(f"{self.name}: {script}")
            time.sleep(0.01)
        return value

    def text(self, selector):
        return self.run("return document.querySelector(arguments[0]).innerText", selector)

    def click(self, selector):
        self.run("document.querySelector(arguments[0]).click()", selector)

    def fill(self, selector, text):
        self.run("const it = document.querySelector(arguments[0]); it.value = arguments[1];"
                 "it.dispatchEvent(new Event('input', { bubbles: true }))", selector, text)

    def requests(self):
        """Returns the addresses of all requests since the last call, if the browser names them."""
        return set()

    def load(self, url):
        """Opens a page anew, and waits until it is ready or says why not."""
        self.open("about:blank")
        self.open(url)
        self.wait("return document.getElementById('engine').hidden || /No answers/.test(document.body.innerText)")


class Chromium(Browser):
    name = "Chromium"

    def __init__(self):
        from selenium import webdriver
        from selenium.webdriver.chrome.service import Service

        options = webdriver.ChromeOptions()
        for word in ("--headless=new", "--no-sandbox", "--disable-gpu", "--hide-scrollbars"):
            options.add_argument(word)
        options.set_capability("goog:loggingPrefs", {"performance": "ALL"})
        self.driver = webdriver.Chrome(service=Service(shutil.which("chromedriver")), options=options)
        self.version = self.driver.capabilities["browserVersion"]

    def open(self, url):
        self.driver.get(url)

    def run(self, script, *words):
        return self.driver.execute_script(script, *words)

    def choose(self, selector, *paths):
        self.driver.find_element("css selector", selector).send_keys("\n".join(map(str, paths)))

    def drop(self, selector, *paths):
        """Drops files on an element, as the browser does with files from outside of it."""
        x, y = self.run("const it = document.querySelector(arguments[0]); it.scrollIntoView({ block: 'center' });"
                        "const at = it.getBoundingClientRect(); return [at.x + 20, at.y + 10]", selector)
        data = {"items": [], "files": [*map(str, paths)], "dragOperationsMask": 1}
        for kind in ("dragEnter", "dragOver", "drop"):
            self.driver.execute_cdp_cmd("Input.dispatchDragEvent", {"type": kind, "x": x, "y": y, "data": data})

    def tab(self):
        """Presses Tab. Returns the role and the name of the element that has the focus then."""
        from selenium.webdriver.common.action_chains import ActionChains

        ActionChains(self.driver).send_keys(TAB).perform()
        it = self.driver.switch_to.active_element
        return it.aria_role, it.accessible_name

    def requests(self):
        events = [json.loads(it["message"])["message"] for it in self.driver.get_log("performance")]
        return {it["params"]["request"]["url"] for it in events if it["method"] == "Network.requestWillBeSent"}

    def focusable(self):
        """Returns the roles and the names of all parts of the accessibility tree that can have the focus."""
        self.driver.execute_cdp_cmd("Accessibility.enable", {})
        nodes = self.driver.execute_cdp_cmd("Accessibility.getFullAXTree", {})["nodes"]
        found = [it for it in nodes if {"name": "focusable", "value": {"type": "booleanOrUndefined", "value": True}}
                 in it.get("properties", []) and not it["ignored"]]
        return [(it["role"]["value"], it["name"]["value"]) for it in found]

    def look(self, width, height, dark=False):
        set_media = {"features": [{"name": "prefers-color-scheme", "value": "dark" if dark else "light"}]}
        self.driver.execute_cdp_cmd("Emulation.setEmulatedMedia", set_media)
        size = {"width": width, "height": height, "deviceScaleFactor": 1, "mobile": False}
        self.driver.execute_cdp_cmd("Emulation.setDeviceMetricsOverride", size)

    def shot(self, path):
        self.driver.save_screenshot(str(path))

    def before(self, script):
        """Runs a script in front of those of each page that is opened from now on."""
        self.driver.execute_cdp_cmd("Page.addScriptToEvaluateOnNewDocument", {"source": script})

    def close(self):
        self.driver.quit()


class Firefox(Browser):
    name = "Firefox"
    ELEMENT = "element-6066-11e4-a52e-4f735466cecf"

    def __init__(self):
        self.folder = tempfile.mkdtemp()
        with socket.socket() as free:
            free.bind(("127.0.0.1", 0))
            port = free.getsockname()[1]
        Path(self.folder, "user.js").write_text(f'user_pref("marionette.port", {port});', encoding="ascii")
        words = ["firefox-esr", "--headless", "--marionette", "--no-remote", "--profile", self.folder]
        self.process = subprocess.Popen(words, stdout=subprocess.DEVNULL, stderr=subprocess.DEVNULL)
        self.count, self.left = 0, b""
        for _ in range(600):
            try:
                self.socket = socket.create_connection(("127.0.0.1", port))
                break
            except OSError:
                time.sleep(0.1)
        self.receive()
        self.version = self.ask("WebDriver:NewSession")["capabilities"]["browserVersion"]

    def receive(self):
        """Reads a message: its length in octets, a colon, and JSON."""
        while b":" not in self.left:
            self.left += self.socket.recv(1 << 16)
        length, self.left = self.left.split(b":", 1)
        while len(self.left) < int(length):
            self.left += self.socket.recv(1 << 20)
        message, self.left = self.left[: int(length)], self.left[int(length):]
        return json.loads(message)

    def ask(self, command, **words):
        self.count += 1
        message = json.dumps([0, self.count, command, words]).encode()
        self.socket.sendall(b"%d:%s" % (len(message), message))
        _, _, fault, found = self.receive()
        if fault:
            raise RuntimeError(f"{command}: {fault['message']}")
        return found

    def open(self, url):
        self.ask("WebDriver:Navigate", url=url)

    def run(self, script, *words):
        return self.ask("WebDriver:ExecuteScript", script=script, args=words)["value"]

    def element(self, selector):
        return self.ask("WebDriver:FindElement", using="css selector", value=selector)["value"][self.ELEMENT]

    def choose(self, selector, *paths):
        self.ask("WebDriver:ElementSendKeys", id=self.element(selector), text="\n".join(map(str, paths)))

    def drop(self, selector, *paths):
        """Makes the event of a drop of files, which a new input got. Marionette has no drop from outside of Firefox."""
        self.run("document.body.append(Object.assign(document.createElement('input'),"
                 "{ type: 'file', id: 'picked', multiple: true }))")
        self.choose("#picked", *paths)
        self.run("const dataTransfer = new window.DataTransfer(), it = document.getElementById('picked');"
                 "for (const file of it.files) dataTransfer.items.add(file); it.remove();"
                 "const event = new window.DragEvent('drop', { dataTransfer, bubbles: true, cancelable: true });"
                 "document.querySelector(arguments[0]).dispatchEvent(event)", selector)

    def tab(self):
        keys = [{"type": it, "value": TAB} for it in ("keyDown", "keyUp")]
        self.ask("WebDriver:PerformActions", actions=[{"type": "key", "id": "keys", "actions": keys}])
        it = self.ask("WebDriver:GetActiveElement")["value"][self.ELEMENT]
        names = "WebDriver:GetComputedRole", "WebDriver:GetComputedLabel"
        role, name = (self.ask(command, id=it)["value"] for command in names)
        return role, name

    def shot(self, path):
        Path(path).write_bytes(base64.b64decode(self.ask("WebDriver:TakeScreenshot", full=False)["value"]))

    def close(self):
        self.ask("Marionette:Quit", flags=["eForceQuit"])
        self.process.wait(30)
        shutil.rmtree(self.folder, ignore_errors=True)


def browsers():
    """Returns the browsers that this machine has. It names those that are left out."""
    found = []
    for kind, tools in ((Chromium, ("chromium", "chromedriver")), (Firefox, ("firefox-esr",))):
        missing = [it for it in tools if not shutil.which(it)]
        if kind is Chromium and not missing:
            try:
                import selenium  # noqa: F401
            except ImportError:
                missing = ["python3-selenium"]
        if missing:
            print(f"left out: the page in {kind.name} needs {', '.join(missing)}")
        else:
            found.append(kind)
    return found
