"""Browsers to try the page in: Chromium, Firefox and WebKit, each from Debian's packages, each without a window.

An engine goes to an address (`go`), runs a script in the page (`run`, `wait_for`), chooses a file for a field (`choose`), takes a picture
(`picture`), and is closed.
"""
import json
import os
import shutil
import socket
import subprocess
import tempfile
import time


class Failed(Exception):
    """A test that failed, in words."""


class Engine:
    name = "an engine"

    def wait_for(self, script, *words, what="something", seconds=60):
        """What a script gives, as soon as it is not null."""
        end = time.monotonic() + seconds
        while time.monotonic() < end:
            told = self.run(script, *words)
            if told is not None:
                return told
            time.sleep(0.02)
        raise Failed(f"waited {seconds} s for {what}; the page says {self.run('return document.getElementById(`verdict`).textContent')!r}")


class Selenium(Engine):
    def go(self, address):
        self.browser.get(address)

    def run(self, script, *words):
        return self.browser.execute_script(script, *words)

    def choose(self, field, path):
        self.browser.find_element("id", field).send_keys(path)

    def picture(self, path):
        self.browser.save_screenshot(path)

    def close(self):
        self.browser.quit()


class Chromium(Selenium):
    name = "Chromium"

    def __init__(self, saved=None, words=(), dark=False):
        from selenium import webdriver
        from selenium.webdriver.chrome.service import Service
        options = webdriver.ChromeOptions()
        for word in ["--headless=new", "--no-sandbox", "--disable-dev-shm-usage", "--window-size=820,1180", "--disable-background-networking",
                     "--disable-component-update", "--no-first-run", *words]:
            options.add_argument(word)
        if dark:
            options.add_argument("--blink-settings=preferredColorScheme=0")
        if saved:
            options.add_experimental_option("prefs", {"download.default_directory": saved, "download.prompt_for_download": False,
                                                      "profile.default_content_setting_values.automatic_downloads": 1})
        options.set_capability("goog:loggingPrefs", {"browser": "ALL", "performance": "ALL"})
        options.binary_location = "/usr/bin/chromium"
        self.browser = webdriver.Chrome(service=Service("/usr/bin/chromedriver"), options=options)
        self.version = self.browser.capabilities["browserVersion"]


class WebKit(Selenium):
    """The engine of Safari. It wants a screen: run this by xvfb-run."""
    name = "WebKit"

    def __init__(self):
        from selenium import webdriver
        options = webdriver.WebKitGTKOptions()
        # Debian's package lays the browser out by the machine's kind
        package = subprocess.run(["dpkg", "-L", "libwebkit2gtk-4.1-0"], capture_output=True, text=True, check=True).stdout.split("\n")
        options.binary_location = next(f for f in package if f.endswith("/MiniBrowser"))
        options.add_argument("--automation")
        if os.getuid() == 0:
            os.environ["WEBKIT_DISABLE_SANDBOX_THIS_IS_DANGEROUS"] = "1"
        self.browser = webdriver.WebKitGTK(executable_path=shutil.which("WebKitWebDriver"), options=options)
        self.version = self.browser.capabilities["browserVersion"]


class Firefox(Engine):
    """Spoken to by its own remote protocol: Debian has no geckodriver."""
    name = "Firefox"

    def __init__(self, port=28281):
        self.room = tempfile.mkdtemp()
        with open(os.path.join(self.room, "user.js"), "w", encoding="ascii") as file:
            file.write(f'user_pref("marionette.port", {port});\nuser_pref("app.update.enabled", false);\n')
        self.process = subprocess.Popen(
            ["firefox-esr", "--headless", "--no-remote", "--profile", self.room, "--marionette"],
            stdout=subprocess.DEVNULL, stderr=subprocess.DEVNULL, env={**os.environ, "HOME": self.room, "MOZ_DISABLE_CONTENT_SANDBOX": "1"})
        self.count = 0
        for _ in range(600):
            try:
                self.line = socket.create_connection(("127.0.0.1", port))
                self.message()
                break
            except OSError:
                time.sleep(0.1)
        else:
            raise Failed("Firefox does not answer")
        self.version = self.ask("WebDriver:NewSession")["capabilities"]["browserVersion"]

    def message(self):
        size = b""
        while (byte := self.line.recv(1)) != b":":
            if byte == b"":
                raise OSError("closed")
            size += byte
        told = b""
        while len(told) < int(size):
            told += self.line.recv(int(size) - len(told))
        return json.loads(told)

    def ask(self, command, **words):
        self.count += 1
        text = json.dumps([0, self.count, command, words])
        self.line.sendall(f"{len(text.encode())}:{text}".encode())
        _, _, error, told = self.message()
        if error:
            raise Failed(f"{command}: {error}")
        return told

    def go(self, address):
        self.ask("WebDriver:Navigate", url=address)

    def run(self, script, *words):
        return self.ask("WebDriver:ExecuteScript", script=script, args=list(words)).get("value")

    def choose(self, field, path):
        found = self.ask("WebDriver:FindElement", using="css selector", value=f"#{field}")["value"]
        self.ask("WebDriver:ElementSendKeys", id=next(iter(found.values())), text=path)

    def picture(self, path):
        import base64
        with open(path, "wb") as file:
            file.write(base64.b64decode(self.ask("WebDriver:TakeScreenshot", full=False)["value"]))

    def close(self):
        self.process.terminate()
        self.process.wait()
        shutil.rmtree(self.room, ignore_errors=True)


ENGINES = {"chromium": Chromium, "firefox": Firefox, "webkit": WebKit}
