#!/usr/bin/env python3
"""Tries the page of the gateway in a real browser, Debian's chromium, over the built program.

    test_page.py PROGRAM [--pictures FOLDER]

A document is made, looked at, queried, changed and refused, and another client's change appears: parts of it by
keyboard, on a phone and in the dark too. With `--pictures` it keeps a picture of each. As root it installs the tools
that are missing, else it names them, and nothing is tried. The last line is `N passed, M failed`.
"""
import argparse
import importlib.util
import json
import os
import re
import shutil
import subprocess
import sys
import tempfile
import time
import traceback

sys.path.insert(0, os.path.join(os.path.dirname(os.path.abspath(__file__)), "..", "..", "tools"))
from debian_packages import install
from server import use_server

CLIENTS = os.path.normpath(os.path.join(os.path.dirname(os.path.abspath(__file__)), "..", "..", "clients", "python"))
DEBIAN_PYTHON = "/usr/bin/python3"
PATIENCE = 120
COUNTS = {"type": "object", "properties": {"bolts": {"type": "integer", "minimum": 0}}}
TOKEN = "a-token-of-the-page-test"
# Texts that are no JSON: Python's reader says the line and the column.
MISTYPED = ["warning", '{"a": 1,}', '{"a":\n [1 2]}', '{"\u00e4": tru}', "[1,\n", "1 2", "{a: 1}", '{"a" 1}']
# Texts that no document is, with the refusal of the store, and what is said.
BEYOND = [("[1,\n 0.5]", "12 number", "line 2, column 2: a number is not whole"),
          ("[9223372036854775807, 9223372036854775808]", "12 number", "line 1, column 23: a number is beyond 64 bits"),
          ("1e400", "12 number", "line 1, column 1: a number is not whole"),
          ("[" * 65 + "]" * 65, "13 depth", "line 1, column 65: level 65 begins")]


def missing():
    """The Debian packages of what is not there."""
    modules = {"selenium": "python3-selenium", "jsonschema": "python3-jsonschema", "jsonpatch": "python3-jsonpatch"}
    names = [package for module, package in modules.items() if importlib.util.find_spec(module) is None]
    programs = {"chromium": "chromium", "chromedriver": "chromium-driver"}
    return names + [package for program, package in programs.items() if shutil.which(program) is None]


class Page:
    """A gateway over a new store, and a browser that shows its page."""

    def __init__(self, program, pictures):
        self._program, self._pictures = program, pictures
        self._folder = tempfile.TemporaryDirectory(prefix="jpstore-")
        self.url, self._gateway, self.browser = "", None, None

    def begin(self, *options):
        """Starts the gateway over a new store."""
        words = [self._program, "format", self._file(), "--sectors", "4096"]
        subprocess.run(words, check=True, stdout=subprocess.DEVNULL)
        self.start("127.0.0.1:0", *options)

    def start(self, listen, *options):
        """Starts the gateway at an address."""
        words = [sys.executable, "-m", "jpstore", "http", self._file(), "--listen", listen, "--program", self._program]
        environment = {**os.environ, "PYTHONPATH": CLIENTS}
        self._gateway = subprocess.Popen([*words, *options], env=environment, stdout=subprocess.PIPE, text=True)
        self.url = self._gateway.stdout.readline().split()[-1]

    def stop(self):
        """Ends the gateway."""
        self._gateway.terminate()
        self._gateway.wait(PATIENCE)
        self._gateway.stdout.close()

    def _file(self):
        return os.path.join(self._folder.name, "store")

    def open(self, width=1400, height=900):
        """Opens the page."""
        from selenium import webdriver
        from selenium.webdriver.chrome.service import Service
        options = webdriver.ChromeOptions()
        for word in ("--headless=new", "--no-sandbox", "--disable-gpu", "--disable-dev-shm-usage", "--no-proxy-server",
                     f"--window-size={width},{height}", f"--user-data-dir={self._folder.name}/browser"):
            options.add_argument(word)
        options.binary_location = shutil.which("chromium")
        options.set_capability("goog:loggingPrefs", {"browser": "ALL"})
        self.browser = webdriver.Chrome(service=Service(shutil.which("chromedriver")), options=options)
        self.browser.get(self.url)

    def token_file(self):
        """A file with the token."""
        path = os.path.join(self._folder.name, "token")
        with open(path, "w", encoding="ascii", opener=lambda name, flags: os.open(name, flags, 0o600)) as opened:
            opened.write(TOKEN + "\n")
        return path

    def close(self):
        """Ends both."""
        if self.browser is not None:
            self.browser.quit()
        if self._gateway is not None:
            self.stop()
        self._folder.cleanup()

    def ask(self, method, path, body=None, kind="application/json", **fields):
        """Another client's request, and its answer."""
        import urllib.request
        data = None if body is None else json.dumps(body).encode()
        asked = urllib.request.Request(self.url + path, data, {"Content-Type": kind, **fields}, method=method)
        with urllib.request.build_opener(urllib.request.ProxyHandler({})).open(asked, timeout=PATIENCE) as answer:
            return json.loads(answer.read())

    def one(self, selector):
        """The element that a selector names."""
        return self.browser.find_element("css selector", selector)

    def all(self, selector):
        """All elements that a selector names."""
        return self.browser.find_elements("css selector", selector)

    def until(self, holds, what):
        """Waits until something holds. The page may draw an element anew while it is looked at: then it is looked up again."""
        from selenium.common.exceptions import NoSuchElementException, StaleElementReferenceException
        end = time.monotonic() + PATIENCE
        while time.monotonic() < end:
            try:
                if holds():
                    return
            except (NoSuchElementException, StaleElementReferenceException):
                pass
            time.sleep(0.05)
        raise AssertionError("waited in vain for " + what)

    def text(self, selector):
        """The text that is shown there."""
        found = []
        self.until(lambda: found.append(self.one(selector).text) or found, selector)
        return found[0]

    def click(self, selector, word=""):
        """Clicks the first element that the selector names and whose text has the word."""
        def clicked():
            for each in self.all(selector):
                if word in each.text:
                    each.click()
                    return True
            return False
        self.until(clicked, f"{word or selector} to click")

    def write(self, selector, text):
        """Writes a text into a field."""
        field = self.one(selector)
        field.clear()
        field.send_keys(text)

    def picture(self, name):
        """Keeps a picture of the page."""
        if self._pictures:
            os.makedirs(self._pictures, exist_ok=True)
            self.browser.save_screenshot(os.path.join(self._pictures, name + ".png"))


def make_a_document(page):
    """A document is made, under a schema."""
    page.until(lambda: page.text("#live") == "live", "the stream of changes")
    page.until(lambda: page.text("#no-names") == "No documents yet.", "the names, of which there are none")
    page.one("#new-panel > summary").click()
    page.write("#new-name", "shelf-1")
    page.write("#new-doc", '{"bolts": 40, "big": 9007199254740993, "<b>": "<script>1</script>"}')
    page.write("#new-schema", json.dumps(COUNTS))
    page.one("#new-form button").click()
    page.until(lambda: page.text("#title") == "shelf-1", "the new document")
    assert page.ask("GET", "documents/shelf-1")["big"] == 9007199254740993
    assert page.ask("GET", "schemas/shelf-1") == COUNTS
    shown = page.text("#tree")
    assert "9007199254740993" in shown and "<script>1</script>" in shown, shown
    page.until(lambda: "shelf-1 created" in page.text("#feed"), "the change in the feed")
    page.until(lambda: "1 document " in page.text("#figures"), "the figures")
    page.picture("document")


def see_a_refused_document(page):
    """A document that is not valid is refused, with the place and the keyword."""
    page.write("#new-name", "bad")
    page.write("#new-doc", '{"bolts": -1}')
    page.write("#new-schema", json.dumps(COUNTS))
    page.one("#new-form button").click()
    page.until(lambda: "less than the minimum" in page.text("#new-result"), "the reason")
    assert "/bolts" in page.text("#new-result") and "45 invalid" in page.text("#new-result")
    page.one("#new-panel > summary").click()


def change_a_value(page):
    """A value is changed; the patch that is sent is shown before."""
    assert not page.one("#edit-form").is_displayed()
    page.click(".leaf", "bolts")
    page.until(lambda: page.one("#edit-form").is_displayed(), "the panel of the edit")
    assert page.one("#pointer").get_attribute("value") == "/bolts"
    page.write("#value", "39")
    rev = page.text("#rev")
    shown = page.text("#patch")
    assert f'If-Match: "{rev}"' in shown, shown
    assert json.loads(shown.partition("\n\n")[2]) == [{"op": "replace", "path": "/bolts", "value": 39}]
    page.one("#edit-form button.main").click()
    page.until(lambda: "is stored" in page.text("#edit-result"), "the change")
    assert page.ask("GET", "documents/shelf-1")["bolts"] == 39
    page.until(lambda: "39" in page.text("#tree"), "the new value")


def see_a_refusal(page):
    """A change that is refused says why, and the document is as it was."""
    page.write("#value", "-5")
    page.one("#edit-form button.main").click()
    page.until(lambda: "less than the minimum of 0" in page.text("#edit-result"), "the reason")
    told = page.text("#edit-result")
    assert "/bolts" in told and "/properties/bolts/minimum" in told and "45 invalid" in told, told
    assert page.ask("GET", "documents/shelf-1")["bolts"] == 39
    page.picture("refusal")


def place_by_python(text):
    """The line and the column at which a text ends to be JSON, as Python says it."""
    try:
        json.loads(text)
    except json.JSONDecodeError as error:
        return f"line {error.lineno}, column {error.colno}: "
    raise AssertionError(f"{text} is JSON")


def see_what_is_mistyped(page):
    """What no document can be is said with its line and column while it is typed, and is not sent."""
    seq = page.ask("GET", "status")["seq"]
    for text, name, said in [*((text, "11 not-json", place_by_python(text)) for text in MISTYPED), *BEYOND]:
        page.write("#value", text)
        page.until(lambda said=said: said in page.text("#patch"), f"{said} for {text}")
        page.one("#edit-form button.main").click()
        page.until(lambda name=name, said=said: name in page.text("#edit-result") and said in page.text("#edit-result"), said)
        if text == "warning":
            assert "a text needs double quotes" in page.text("#edit-result")
            page.picture("mistyped")
    assert page.ask("GET", "status")["seq"] == seq


def see_the_change_of_another(page):
    """What another client changes appears, and a patch of an older revision is refused."""
    page.write("#value", "7")
    page.browser.execute_script("window.fetchNow = window.fetch; window.fetch = (path, how) => "
                                "how.method === 'PATCH' ? window.fetchNow(path, {...how, headers: {...how.headers, "
                                "'If-Match': '\"1\"'}}) : window.fetchNow(path, how);")
    page.one("#edit-form button.main").click()
    page.until(lambda: "24 revision" in page.text("#edit-result"), "the refusal")
    page.browser.execute_script("window.fetch = window.fetchNow;")
    page.ask("PATCH", "documents/shelf-1", {"nuts": 112}, "application/merge-patch+json")
    page.until(lambda: "112" in page.text("#tree"), "the other's value")
    page.until(lambda: "add /nuts" in page.text("#feed"), "the other's change in the feed")
    page.ask("PUT", "documents/shelf-2", {"made": "elsewhere"})
    page.until(lambda: "shelf-2" in page.text("#names"), "the other's document")


def keep_what_is_written(page):
    """A value that another client changes while it is edited is reported, and not overwritten unseen."""
    page.ask("PATCH", "documents/shelf-1", {"bolts": 30}, "application/merge-patch+json")
    page.until(lambda: "has changed this value" in page.text("#edit-conflict"), "the other's value")
    assert "It is now 30." in page.text("#edit-conflict")
    # The last refusal was the same one.
    page.browser.execute_script("document.querySelector('#edit-result').textContent = '';")
    page.one("#edit-form button.main").click()
    page.until(lambda: "24 revision" in page.text("#edit-result"), "the refusal")
    assert page.one("#value").get_attribute("value") == "7"
    assert page.ask("GET", "documents/shelf-1")["bolts"] == 30
    page.picture("conflict")
    page.click("#edit-conflict button:last-child")
    page.one("#edit-form button.main").click()
    page.until(lambda: "is stored" in page.text("#edit-result"), "the change")
    assert (page.text("#edit-conflict"), page.ask("GET", "documents/shelf-1")["bolts"]) == ("", 7)
    # Without anything written, the newest value is in the field.
    page.ask("PATCH", "documents/shelf-1", {"bolts": 31}, "application/merge-patch+json")
    page.until(lambda: page.one("#value").get_attribute("value") == "31", "the other's value")
    assert page.text("#edit-conflict") == ""


def add_and_remove_a_value(page):
    """A value is added at a place that is written, and removed again."""
    def send(op, pointer, value, shown):
        page.one(f"#op option:nth-child({1 + ['replace', 'add', 'remove', 'test'].index(op)})").click()
        page.write("#pointer", pointer)
        if value is not None:
            page.write("#value", value)
        assert json.loads(page.text("#patch").partition("\n\n")[2]) == [shown]
        page.one("#edit-form button.main").click()
        page.until(lambda: "is stored" in page.text("#edit-result"), "the change")
        assert page.text("#edit-conflict") == ""
    send("add", "/pins", "[1, 2]", {"op": "add", "path": "/pins", "value": [1, 2]})
    page.until(lambda: page.text("#edit-result").endswith(f"change {page.text('#rev')} is stored."), "the revision")
    send("remove", "/pins/0", None, {"op": "remove", "path": "/pins/0"})
    page.until(lambda: page.ask("GET", "documents/shelf-1")["pins"] == [2], "the end of the value")
    page.click(".leaf", "bolts")


def see_a_transaction(page):
    """Each change of a transaction appears, and so does the question for a revision with which it begins."""
    page.until(lambda: int(page.text("#rev")) == page.ask("GET", "status")["seq"], "the newest revision")
    rev = int(page.text("#rev"))
    ops = [{"op": "replace", "path": "/bolts", "value": 39}, {"op": "move", "from": "/nuts", "path": "/screws"}]
    changes = [{"cmd": "patch", "name": "shelf-1", "if_rev": rev, "ops": []},
               {"cmd": "patch", "name": "shelf-1", "ops": ops}, {"cmd": "create", "name": "t", "doc": [7], "schema": True}]
    page.ask("POST", "transactions", {"changes": changes})
    page.until(lambda: "t created" in page.text("#feed"), "the last change")
    feed = page.text("#feed")
    assert f"shelf-1 still at revision {rev}" in feed and "replace /bolts 39" in feed, feed
    assert "move /nuts to /screws" in feed and "[7]" in feed, feed
    page.picture("transaction")
    assert "One transaction " in feed and len(page.all("#feed .transaction .change")) == 3, feed
    assert f"#{rev + 1} to #{rev + 3}" in feed and page.all("#feed > .change"), feed
    page.until(lambda: "screws" in page.text("#tree"), "the new value")
    page.until(lambda: "t" in page.text("#names").split(), "the new document")


def query(page):
    """The nodes of a query are marked, in values that were closed too."""
    page.ask("PUT", "documents/books", {"it's": [{"price": 12}, {"price": 8}, {"price": 22}]})
    page.until(lambda: "books" in page.text("#names"), "the document")
    page.click("#names a[href='#/books']")
    page.until(lambda: page.text("#title") == "books", "the document")
    page.write("#query", "$..[?@.price > 10].price\n")
    page.until(lambda: page.text("#query-result") == "2 values are marked.", "the count")
    page.until(lambda: [each.text for each in page.all(".tree .marked")] == ['"price": 12', '"price": 22'], "the marks")
    page.picture("query")
    page.write("#query", "$[?@[\"it's\"]]\n")
    page.until(lambda: "No value is found: `@` is each member of the document" in page.text("#query-result"), "the warning")
    page.write("#query", "$..[\n")
    page.until(lambda: "JSONPath" in page.text("#query-result strong"), "the refusal of the query")
    # The meaning, the place and the advice are apart.
    assert page.text("#query-result strong").endswith("(50 path)")
    place, advice = [each.text for each in page.all("#query-result p")]
    assert place.startswith("at character 5 ") and advice.startswith("compare the query with RFC 9535"), (place, advice)
    page.picture("query-refused")
    assert not page.all(".tree .marked")


def find_in_a_long_value(page):
    """A value far down a long list is drawn, marked and scrolled to, and shown again after a change."""
    page.ask("PUT", "documents/long", {f"k-{number}": {"lines": [number]} for number in range(999)})
    page.until(lambda: "long" in page.text("#names"), "the document")
    page.click("#names a[href='#/long']")
    page.until(lambda: page.text("#title") == "long", "the document")
    page.write("#query", "$['k-555'].lines\n")
    page.until(lambda: page.text("#query-result") == "1 value is marked.", "the count")
    page.until(lambda: [each.text for each in page.all(".tree .marked")] == ['"lines": [ 1 item ]'], "the mark")
    in_sight = "const place = arguments[0].getBoundingClientRect(); return 0 <= place.top && place.bottom <= innerHeight;"
    page.until(lambda: page.browser.execute_script(in_sight, page.one(".tree .marked")), "the mark in sight")
    left = [each.text for each in page.all(".tree .more")]
    assert left == ["show more (200 left)", "show more (399 left)"], left
    page.picture("long")
    page.ask("PATCH", "documents/long", {"k-0": 1}, "application/merge-patch+json")
    page.until(lambda: '"k-0": 1' in page.text("#tree"), "the other's value")
    page.until(lambda: len(page.all(".tree .marked")) == 1, "the mark")
    page.click(".tree .more", "200 left")
    page.until(lambda: [each.text for each in page.all(".tree .more")] == ["show more (399 left)"], "the others")


def see_earlier_changes(page):
    """The newest changes from before the page was opened are shown, without a time."""
    page.browser.refresh()
    page.until(lambda: page.text("#live") == "live", "the stream of changes")
    page.until(lambda: "long created" in page.text("#feed"), "a change from before")
    earlier = min(20, page.ask("GET", "status")["seq"])
    page.until(lambda: len(page.all("#feed .earlier")) == earlier, "the others from before")
    assert not page.all("#feed time")
    page.picture("earlier")
    page.click("#names a[href='#/books']")
    page.until(lambda: page.text("#title") == "books", "another document")
    page.ask("DELETE", "documents/long")
    page.until(lambda: "long deleted" in page.text("#feed") and len(page.all("#feed time")) == 1, "a new change")


def change_the_schema(page):
    """The schema is shown, and changed."""
    page.click("#names a[href='#/shelf-1']")
    page.until(lambda: page.text("#title") == "shelf-1", "the document")
    page.one("#schema-panel > summary").click()
    page.until(lambda: page.one("#schema").get_attribute("value").startswith("{"), "the schema")
    page.write("#schema", '{"type": "array"}')
    page.one("#schema-form button").click()
    page.until(lambda: "is not of type 'array'" in page.text("#schema-result"), "the refusal")
    page.write("#schema", '{"type": "object"}')
    page.one("#schema-form button").click()
    page.until(lambda: "is stored" in page.text("#schema-result"), "the change")
    assert page.ask("GET", "schemas/shelf-1") == {"type": "object"}
    page.picture("schema")


def see_a_warning(page):
    """A schema with a misspelt keyword is stored, and the page warns of it."""
    page.write("#schema", '{"minimun": 3}')
    page.one("#schema-form button").click()
    page.until(lambda: "perhaps `minimum` is meant" in page.text("#schema-result"), "the warning")
    assert "is stored" in page.text("#schema-result")
    page.picture("warning")
    page.write("#schema", '{"type": "object"}')
    page.one("#schema-form button").click()
    page.until(lambda: "meant" not in page.text("#schema-result") and "is stored" in page.text("#schema-result"), "no warning")


def make_one_as_another(page):
    """A new document gets the schema of another."""
    page.one("#new-panel > summary").click()
    page.click("#new-as option", "as of shelf-1")
    assert not page.one("#new-schema").is_displayed()
    page.write("#new-name", "shelf-9")
    page.write("#new-doc", "[]")
    page.one("#new-form button").click()
    page.until(lambda: "is not of type 'object'" in page.text("#new-result"), "the refusal by that schema")
    page.write("#new-doc", "{}")
    page.picture("as-another")
    page.one("#new-form button").click()
    page.until(lambda: page.text("#title") == "shelf-9", "the new document")
    assert page.ask("GET", "schemas/shelf-9") == {"type": "object"}
    page.click("#new-as option", "as written below")
    assert page.one("#new-schema").is_displayed()
    page.one("#new-panel > summary").click()


def run_the_recipe(page):
    """The recipe for JavaScript in docs/use/HTTP.md runs on the page."""
    page.ask("PATCH", "documents/shelf-1", {"nuts": 10}, "application/merge-patch+json")
    with open(os.path.join(CLIENTS, "..", "..", "docs", "use", "HTTP.md"), encoding="utf-8") as opened:
        recipe = re.search(r"^```javascript\n(.*?)^```\n\n```\n(.*?)^```$", opened.read(), re.M | re.S).group(1)
    recipe = recipe.replace("http://127.0.0.1:8080/", page.url).replace("console.log(", "done(")
    page.browser.set_script_timeout(PATIENCE)
    seq = page.browser.execute_async_script("const done = arguments[0]; (async () => {" + recipe + "})();")
    assert page.ask("GET", "documents/shelf-1")["nuts"] == 9
    assert page.ask("GET", "status")["seq"] == seq


def use_the_keyboard(page):
    """A document is chosen, a value is opened, and another is changed without a mouse."""
    from selenium.webdriver.common.action_chains import ActionChains
    from selenium.webdriver.common.keys import Keys

    def focused():
        return page.browser.execute_script("const at = document.activeElement; return at.id || at.textContent.trim();")

    def press(*keys):
        ActionChains(page.browser).send_keys(*keys).perform()

    def tab_to(text):
        for _ in range(60):
            if focused() == text:
                return
            press(Keys.TAB)
        raise AssertionError(f"{text} is not reached, but {focused()}")
    page.browser.get(page.url)
    page.until(lambda: page.all("#names a"), "the names")
    page.browser.get(page.url + "#shelf-1")
    page.until(lambda: page.text("#title") == "shelf-1", "the document that the address names without a slash")
    page.browser.get("about:blank")
    page.browser.get(page.url)
    page.until(lambda: page.all("#names a"), "the names")
    press(Keys.TAB)
    assert focused() == "Skip to the document"
    tab_to("books")
    press(Keys.ENTER)
    page.until(lambda: page.text("#title") == "books", "the document")
    tab_to("\"it's\": [ 3 items ]")
    press(Keys.ENTER)
    page.until(lambda: "0: { 1 member }" in page.text("#tree"), "the value that is opened")
    tab_to("0: { 1 member }")
    press(Keys.ENTER)
    page.until(lambda: '"price": 12' in page.text("#tree"), "the value in it")
    tab_to('"price": 12')
    press(Keys.ENTER)
    page.until(lambda: page.one("#edit-form").is_displayed(), "the panel of the edit")
    tab_to("value")
    ActionChains(page.browser).key_down(Keys.CONTROL).send_keys("a").key_up(Keys.CONTROL).send_keys("13").perform()
    tab_to("Send")
    press(Keys.ENTER)
    page.until(lambda: page.ask("GET", "documents/books")["it's"][0]["price"] == 13, "the change")


def use_a_phone(page):
    """On a phone, in the dark, nothing is wider than the screen."""
    how = {"width": 390, "height": 844, "deviceScaleFactor": 2, "mobile": True}
    page.browser.execute_cdp_cmd("Emulation.setDeviceMetricsOverride", how)
    dark = {"features": [{"name": "prefers-color-scheme", "value": "dark"}]}
    page.browser.execute_cdp_cmd("Emulation.setEmulatedMedia", dark)
    page.browser.get(page.url + "#/shelf-1")
    page.until(lambda: page.text("#title") == "shelf-1", "the document")
    assert page.browser.execute_script("return document.documentElement.scrollWidth") <= 390
    red, green, blue = page.browser.execute_script(
        "return getComputedStyle(document.body).backgroundColor.match(/\\d+/g).slice(0, 3).map(Number)")
    assert max(red, green, blue) < 64
    page.picture("phone")
    page.until(lambda: page.text("#live") == "live", "the stream of changes")
    page.ask("POST", "transactions", {"changes": [{"cmd": "create", "name": name, "doc": {}, "schema": True} for name in "vw"]})
    page.until(lambda: "w created" in page.text("#feed"), "the changes of a transaction")
    page.browser.execute_script("document.querySelector('#feed .transaction').scrollIntoView()")
    assert page.browser.execute_script("return document.documentElement.scrollWidth") <= 390
    page.picture("phone-transaction")
    page.browser.execute_cdp_cmd("Emulation.clearDeviceMetricsOverride", {})
    page.browser.execute_cdp_cmd("Emulation.setEmulatedMedia", {"features": []})


def delete(page):
    """A document is deleted after a question."""
    page.browser.get(page.url + "#/shelf-2")
    page.until(lambda: page.text("#title") == "shelf-2", "the document")
    page.one("#delete").click()
    page.browser.switch_to.alert.dismiss()
    assert page.ask("GET", "documents/shelf-2") == {"made": "elsewhere"}
    page.one("#delete").click()
    page.browser.switch_to.alert.accept()
    page.until(lambda: "shelf-2" not in page.text("#names"), "its end")
    assert "shelf-2" not in page.ask("GET", "documents")


def no_errors_in_the_console(page):
    """The browser has nothing to complain of but the refusals that were asked for."""
    told = [each["message"] for each in page.browser.get_log("browser")]
    expected = ("status of 422", "status of 412", "status of 400", "status of 401")
    assert all(any(text in message for text in expected) for message in told), told


def outlive_the_gateway(page):
    """A change that the gateway can't answer is told, also far down the page, and is made once the gateway is back."""
    page.browser.get(page.url + "#/t")
    page.until(lambda: page.text("#live") == "live", "the stream of changes")
    page.until(lambda: page.text("#title") == "t", "the document")
    page.click(".leaf", "7")
    page.write("#value", "8")
    page.stop()
    page.until(lambda: page.text("#live").startswith("not connected"), "the state")
    page.one("#edit-form button.main").click()
    page.until(lambda: "The change is stored, or not at all" in page.text("#edit-result"), "the reason")
    page.browser.execute_script("scrollTo(0, document.body.scrollHeight)")
    in_sight = "const place = arguments[0].getBoundingClientRect(); return 0 <= place.top && place.bottom <= innerHeight;"
    assert page.browser.execute_script(in_sight, page.one("#live"))
    page.picture("gone")
    page.start(page.url.split("/")[2])
    page.until(lambda: page.text("#live") == "live", "the stream of changes")
    assert page.one("#value").get_attribute("value") == "8" and page.text("#edit-conflict") == ""
    # As if the lost change had been stored: no other client is blamed for it.
    page.ask("PATCH", "documents/t", [{"op": "replace", "path": "/0", "value": 8}], "application/json-patch+json")
    page.until(lambda: page.text("#rev") == str(page.ask("GET", "status")["seq"]), "the revision")
    page.until(lambda: "8" in page.text("#tree"), "the new value")
    assert page.text("#edit-conflict") == ""
    page.one("#edit-form button.main").click()
    page.until(lambda: "is stored" in page.text("#edit-result"), "the change")


def ask_for_the_token(page):
    """A store with a token asks for it, refuses another one, and then shows its documents."""
    page.until(lambda: page.one("#token-form").is_displayed(), "the question")
    assert not page.one("#main").is_displayed()
    page.write("#token", "wrong")
    page.one("#token-form button").click()
    page.until(lambda: "not the token" in page.text("#token-error"), "the refusal")
    page.write("#token", TOKEN)
    page.one("#token-form button").click()
    page.ask("PUT", "documents/secret", 1, Authorization=f"Bearer {TOKEN}")
    page.until(lambda: page.text("#live") == "live", "the stream")
    page.until(lambda: "secret" in page.text("#names"), "the document")
    page.until(lambda: "1 document " in page.text("#figures"), "the figures")
    page.until(lambda: "secret" in page.text("#feed"), "the change")
    page.picture("token")


WITHOUT_TOKEN = [make_a_document, see_a_refused_document, change_a_value, see_a_refusal, see_what_is_mistyped,
                 see_the_change_of_another, keep_what_is_written, add_and_remove_a_value, see_a_transaction, query,
                 find_in_a_long_value, see_earlier_changes, change_the_schema, see_a_warning, make_one_as_another,
                 run_the_recipe, use_the_keyboard, use_a_phone, delete, no_errors_in_the_console, outlive_the_gateway]


def tried(program, pictures, parts, with_token):
    """How many parts passed and failed; a part that fails ends those after it."""
    page = Page(program, pictures)
    passed = 0
    try:
        page.begin(*(["--token-file", page.token_file()] if with_token else []))
        page.open()
        for part in parts:
            part(page)
            passed += 1
            print(f"passed: {part.__doc__}", flush=True)
    except Exception:
        traceback.print_exc(file=sys.stdout)
        if page.browser is not None:
            page.picture("failure")
    finally:
        page.close()
    return passed, len(parts) - passed


def main():
    parser = argparse.ArgumentParser(description=__doc__.splitlines()[0])
    parser.add_argument("program")
    parser.add_argument("--pictures", metavar="FOLDER", help="keep pictures of the page there")
    options = parser.parse_args()
    names = missing()
    if names and os.path.exists(DEBIAN_PYTHON) and os.path.realpath(sys.executable) != os.path.realpath(DEBIAN_PYTHON):
        # Debian's packages are for Debian's interpreter.
        os.execv(DEBIAN_PYTHON, [DEBIAN_PYTHON, *sys.argv])
    if names:
        install(names)
        names = missing()
    if names:
        print("not tried, since these Debian packages are missing: " + " ".join(names))
        print("0 passed, 0 failed")
        return 0
    use_server()
    program = os.path.abspath(options.program)
    counts = [tried(program, options.pictures, WITHOUT_TOKEN, False),
              tried(program, options.pictures, [ask_for_the_token, no_errors_in_the_console], True)]
    failed = sum(count for _, count in counts)
    print(f"{sum(count for count, _ in counts)} passed, {failed} failed")
    return 1 if failed else 0


if __name__ == "__main__":
    sys.exit(main())
