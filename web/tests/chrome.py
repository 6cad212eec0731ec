"""A person at the page in Chromium, with what Chromium alone lets a test do: its own protocol, keys, files that are chosen and saved."""
import os
import shutil
import tempfile
import time

from engines import Chromium, Failed
from person import Person
from selenium.webdriver.common.action_chains import ActionChains
from selenium.webdriver.common.by import By


class Chrome:
    def __init__(self, folder, samples, pictures):
        self.folder, self.samples, self.pictures = map(os.path.abspath, (folder, samples, pictures))
        self.page = os.path.join(self.folder, "wakeluri.html")
        os.makedirs(self.pictures, exist_ok=True)
        self.room = tempfile.mkdtemp()
        self.saved = os.path.join(self.room, "saved")
        os.mkdir(self.saved)
        self.browser = Chromium(saved=self.saved)
        self.person = Person(self.browser, self.page)

    def close(self):
        self.browser.close()
        shutil.rmtree(self.room, ignore_errors=True)

    def check(self, what, good, told=""):
        if not good:
            raise Failed(f"{what}: {told}")
        self.person.passed += 1
        print(f"ok  {what}{': ' + str(told)[:160] if told else ''}")

    def picture(self, name):
        self.browser.picture(os.path.join(self.pictures, name + ".png"))

    def cdp(self, command, **words):
        return self.browser.browser.execute_cdp_cmd(command, words)

    def at(self, name):
        return self.browser.browser.find_element(By.ID, name)

    def write(self, name, content):
        path = os.path.join(self.room, name)
        with open(path, "wb") as file:
            file.write(content)
        return path

    def press(self, *keys):
        ActionChains(self.browser.browser).send_keys(*keys).perform()

    def focused(self):
        return self.browser.run("return document.activeElement.id || document.activeElement.tagName")

    def size(self, width, height, scale=1, mobile=False):
        self.cdp("Emulation.setDeviceMetricsOverride", width=width, height=height, deviceScaleFactor=scale, mobile=mobile)

    def colours(self, scheme=None):
        """Light or dark, or as the browser has it."""
        self.cdp("Emulation.setEmulatedMedia", features=[{"name": "prefers-color-scheme", "value": scheme}] if scheme else [])

    def named(self, name):
        """What a file that was saved holds."""
        for _ in range(200):
            path = os.path.join(self.saved, name)
            if os.path.exists(path):
                with open(path, "rb") as file:
                    return file.read()
            time.sleep(0.05)
        raise Failed(f"no file {name} was saved; there are {os.listdir(self.saved)}")

    def everything(self):
        """Results in every part of the page."""
        person = self.person
        person.open(b">chr1 a first drill\n" + b"ACGTACGTNN\n" * 6 + b">chr2 a second one\nGGGGCCCC\n", name="course.fa")
        person.read("5", "34", "both")
        person.tab("sheet")
        person.fill(regions="chr1:1-12 exercise A\nchr2:3-6 - exercise B\n")
        person.press("answer", "sheet-told")
        person.tab("exercise")
        person.fill(**{"from": "1", "to": "20"})
        self.browser.run("document.getElementById('make-exercise').click()")
        person.says("asks")
        person.drop(("class.csv", "who,answer\nAda,ACGTACGTNNACGTACGTNN\nBob,ACGTACGA\n"), on="#panel-exercise")
        person.says("scored")
        person.tab("primer")
        person.fill(primer="ACGY", where="all")
        person.press("find", "primer-told")
