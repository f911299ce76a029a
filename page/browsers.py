"""Chromium and Firefox without a window, for tests: each opens the page, runs scripts in it, and gives files to it."""

import json
import os
import socket
import subprocess
import time


def same(what, got, wanted):
    if got != wanted:
        raise SystemExit(f"{what}: {got!r:.500} and not {wanted!r:.500}")


class Browser:
    """A browser that has the page. `open`, `script` and `give` are each browser's own."""

    def text(self, selector):
        return self.script("return document.querySelector(arguments[0])?.innerText ?? ''", selector)

    def click(self, selector):
        self.script("document.querySelector(arguments[0]).click()", selector)

    def button(self, within, name):
        self.script("[...document.querySelectorAll(arguments[0] + ' button')].find((it) => it.textContent === arguments[1]).click()", within, name)

    def do(self, what):
        self.click(f"[data-do={what}]")

    def until(self, what, holds, seconds=60):
        end = time.monotonic() + seconds
        while time.monotonic() < end:
            if holds():
                return
            time.sleep(0.1)
        raise SystemExit(f"{self.name}: not so after {seconds} s: {what}; status {self.text('#status')!r}")

    def answer(self, **values):
        self.until("a dialog asks", lambda: self.script("return document.querySelector('#ask').open"))
        self.script("for (const [name, value] of Object.entries(arguments[0])) document.querySelector(`#ask [name=${name}]`).value = value", values)
        self.click("#ask button.main")

    def press(self, key, **more):
        self.script("document.activeElement.dispatchEvent(new KeyboardEvent('keydown', { key: arguments[0], bubbles: true, cancelable: true, ...arguments[1] }))", key, more)

    def rows(self):
        """Returns the paths in the tree, or none of them while a dialog is over it."""
        return self.script("return document.querySelector('#ask').open ? [] : [...document.querySelectorAll('#tree .row')].map((it) => it.title)")

    def choose(self, path):
        self.until(f"{path} is in the tree", lambda: self.script("const row = [...document.querySelectorAll('#tree .row')].find((it) => it.title === arguments[0]); row?.click(); return Boolean(row)", path))
        self.until(f"{path} is shown", lambda: self.text("#view h3") == path)

    def chosen(self):
        return self.script("return document.querySelector('#tree [aria-selected=true]').title")

    def downloaded(self, name):
        at = self.downloads / name
        self.until(f"{name} is downloaded", lambda: at.exists() and at.stat().st_size and not [*at.parent.glob("*.part"), *at.parent.glob("*.crdownload")])
        data = at.read_bytes()
        at.unlink()
        return data


class Chromium(Browser):
    name, takes_folders = "Chromium", True

    def __init__(self, page, folder, downloads):
        from selenium import webdriver
        from selenium.webdriver.chrome.options import Options
        from selenium.webdriver.chrome.service import Service
        options = Options()
        for word in ("--headless=new", "--no-sandbox", "--disable-gpu", "--window-size=1280,900", f"--user-data-dir={folder}"):
            options.add_argument(word)
        options.set_capability("goog:loggingPrefs", {"performance": "ALL"})
        self.driver, self.downloads = webdriver.Chrome(service=Service("/usr/bin/chromedriver"), options=options), downloads
        self.driver.execute_cdp_cmd("Browser.setDownloadBehavior", {"behavior": "allow", "downloadPath": str(downloads)})
        self.driver.execute_cdp_cmd("Page.setInterceptFileChooserDialog", {"enabled": True})
        self.script, self.open = self.driver.execute_script, self.driver.get
        self.open(page)

    def give(self, selector, *paths):
        self.driver.find_element("css selector", selector).send_keys("\n".join(map(str, paths)))

    def drop(self, selector, *paths):
        """Drops files or folders, as from another window."""
        box = self.script("const { x, y, width } = document.querySelector(arguments[0]).getBoundingClientRect(); return [x + width / 2, y + 20]", selector)
        at = {"x": box[0], "y": box[1], "data": {"items": [], "files": [str(it) for it in paths], "dragOperationsMask": 1}}
        for kind in ("dragEnter", "dragOver", "drop"):
            self.driver.execute_cdp_cmd("Input.dispatchDragEvent", {"type": kind, **at})

    def requests(self):
        """Returns the addresses that were asked for."""
        found = [json.loads(it["message"])["message"] for it in self.driver.get_log("performance")]
        return [it["params"]["request"]["url"] for it in found if it["method"] == "Network.requestWillBeSent"]

    def quit(self):
        self.driver.quit()


class Firefox(Browser):
    """By Marionette, Firefox's own protocol for tests: a message is its length, a colon, and JSON."""

    name, takes_folders = "Firefox", False

    def __init__(self, page, folder, downloads):
        with socket.socket() as free:
            free.bind(("127.0.0.1", 0))
            port = free.getsockname()[1]
        preferences = {"browser.download.folderList": 2, "browser.download.dir": str(downloads), "marionette.port": port, "privacy.reduceTimerPrecision": False}
        (folder / "user.js").write_text("".join(f"user_pref({json.dumps(name)}, {json.dumps(value)});\n" for name, value in preferences.items()))
        self.program = subprocess.Popen(["firefox-esr", "--headless", "--marionette", "--no-remote", "--profile", str(folder)],
                                        env={**os.environ, "HOME": str(folder)}, stdout=subprocess.DEVNULL, stderr=subprocess.DEVNULL)
        self.stream, self.number, self.downloads = self.connected(port), 0, downloads
        self.message()
        self.ask("WebDriver:NewSession", capabilities={})
        self.open(page)

    def connected(self, port):
        for _ in range(360):
            try:
                return socket.create_connection(("127.0.0.1", port)).makefile("rwb")
            except OSError:
                time.sleep(0.5)
        raise SystemExit("Firefox doesn't answer")

    def message(self):
        length = b""
        while (byte := self.stream.read(1)) != b":":
            length += byte or exit("Firefox has ended")
        return json.loads(self.stream.read(int(length)))

    def ask(self, what, **given):
        self.number += 1
        data = json.dumps([0, self.number, what, given]).encode()
        self.stream.write(b"%d:%s" % (len(data), data))
        self.stream.flush()
        _, _, error, answer = self.message()
        if error:
            raise SystemExit(f"{what}: {error['error']}: {error['message']}")
        return answer

    def open(self, page):
        self.ask("WebDriver:Navigate", url=page)

    def script(self, text, *arguments):
        return self.ask("WebDriver:ExecuteScript", script=text, args=list(arguments))["value"]

    def give(self, selector, *paths):
        found = self.ask("WebDriver:FindElement", using="css selector", value=selector)["value"]
        self.ask("WebDriver:ElementSendKeys", id=next(iter(found.values())), text="\n".join(map(str, paths)))

    def drop_texts(self, texts):
        """Drops files with these texts, since the protocol gives no folder to an input."""
        self.script("""const data = new DataTransfer();
            for (const [name, text] of Object.entries(arguments[0])) data.items.add(new File([text], name));
            document.querySelector("#drop").dispatchEvent(new DragEvent("drop", { dataTransfer: data, bubbles: true, cancelable: true }))""", texts)

    def quit(self):
        self.program.terminate()
        self.program.wait()
