#!/usr/bin/python3
"""Looks at the page of banks.py in headless Chromium, at two window sizes, and compares what it shows with the table.

    /usr/bin/python3 tools/specimen/browse.py
    /usr/bin/python3 tools/specimen/browse.py --table rows.tsv [--messages errors.txt] [--banks banks.tsv] [--need label.txt]

Without arguments the table is the small one of test_banks.py. `--page` takes a page that is there already, `--shots` a
folder for pictures. Needs Debian's chromium, chromium-driver and python3-selenium. The exit status is 1 at any difference.
"""
import argparse
import os
import re
import subprocess
import sys
import tempfile
import time

from selenium import webdriver
from selenium.common.exceptions import WebDriverException
from selenium.webdriver.chrome.service import Service
from selenium.webdriver.common.action_chains import ActionChains
from selenium.webdriver.common.actions.action_builder import ActionBuilder
from selenium.webdriver.common.by import By
from selenium.webdriver.common.keys import Keys

sys.dont_write_bytecode = True
import specimen
import test_banks

HERE = os.path.dirname(os.path.abspath(__file__))
SIZES = [("desktop", 1280, 900), ("phone", 390, 844)]
WORDS = ("yes", "no", "unreadable")
# Of the small table's glyphs, those that have something to draw.
SAMPLE_DRAWN = {"eight", "nine", test_banks.ODD, "halt?ed"}


def text_of(latin):
    try:
        return latin.encode("latin-1").decode("utf-8")
    except UnicodeError:
        return latin


def said_of(reason):
    """What the page says of a reason."""
    if reason == "missing":
        return reason
    return "%s %s" % (reason, specimen.MEANINGS[int(reason)] if reason.isdigit() else "the bank's window")


class Expected:
    """The table, read here anew: for each cell its row, by the columns' names."""

    def __init__(self, table, messages):
        with open(table, "rb") as f:
            lines = [line.split("\t") for line in f.read().decode("latin-1").split("\n") if line]
        self.columns = lines[0]
        self.banks, self.cells, font, place = [], {}, 0, ""
        for line in lines[1:]:
            row = dict(zip(self.columns, line))
            if row["bank"] not in self.banks:
                self.banks.append(row["bank"])
            at = self.banks.index(row["bank"]) + 1
            if row["font"] != place or (font, at) in self.cells:
                font, place = font + 1, row["font"]
            row["which"] = re.findall(r"(\S+) (\d+|crossing|outside|missing)(?:, |$)", row["which"])
            self.cells[font, at] = row
        self.fonts = font
        self.said = {}
        if messages:
            with open(messages, "rb") as f:
                for line in f.read().decode("latin-1").split("\n"):
                    for row in self.cells.values():
                        if line.startswith(row["font"] + ": "):
                            self.said[row["font"]] = line[len(row["font"]) + 2:]

    def parts(self, row):
        """What the cell must show."""
        out = [text_of(os.path.basename(row["font"])), text_of(row["bank"])]
        for name, reason in row["which"]:
            out += [text_of(name), said_of(reason)]
        if row["font"] in self.said and row["prints"] == "unreadable":
            out.append(text_of(self.said[row["font"]]))
        for column, value in row.items():
            if column not in ("font", "bank", "prints", "failing", "which") and value != "-":
                out.append(text_of(value))
        return out

    def first(self, word):
        """The cell of this word that has most to show."""
        found = [at for at, row in self.cells.items() if row["prints"] == word]
        refused = {at: [reason for _, reason in self.cells[at]["which"] if reason != "missing"] for at in found}
        return max(found, key=lambda at: (len(refused[at]), len(self.cells[at]["which"]))) if found else None


def colour_of(rgb):
    r, g, b = (int(v) for v in re.findall(r"\d+", rgb)[:3])
    if max(r, g, b) - min(r, g, b) < 8:
        return "grey"
    return "green" if g > r + 12 and g > b + 12 else "red" if r > g + 12 and r > b + 12 else rgb


COLOURS = {"yes": "green", "no": "red", "unreadable": "grey"}

# How much of an element can be seen: in the window, and with nothing above its middle.
IN_VIEW = """
var e = arguments[0], r = e.getBoundingClientRect(), x = (r.left + r.right) / 2, y = (r.top + r.bottom) / 2;
var hit = document.elementFromPoint(x, y);
return r.width > 0 && r.height > 0 && r.left >= 0 && r.top >= 0 && r.right <= innerWidth + 1 && r.bottom <= innerHeight + 1
    && !!hit && e.contains(hit);
"""

OPEN = "return Array.from(document.querySelectorAll('.facts')).filter(e => e.getClientRects().length).map(e => e.id)"

# A place that belongs to no cell.
FREE = """
for (var y = 2; y < innerHeight; y += 10) {
  var hit = document.elementFromPoint(4, y);
  if (hit && !hit.closest(".cell")) { return [4, y]; }
}
return [0, 0];
"""


class Look:
    """One window. Every difference is printed and counted."""

    def __init__(self, driver, url, expected, size, drawn):
        self.driver, self.url, self.expected, self.drawn = driver, url, expected, drawn
        self.name, self.width, self.height = size
        self.checks = self.differences = self.followed = self.paths = 0

    def same(self, what, got, wanted):
        self.checks += 1
        if got != wanted:
            self.differences += 1
            print("%s: %s: %r, expected %r" % (self.name, what, got, wanted))

    def holds(self, what, ok):
        self.same(what, bool(ok), True)

    def find(self, selector):
        return self.driver.find_elements(By.CSS_SELECTOR, selector)

    def one(self, name):
        return self.driver.find_element(By.ID, name)

    def button(self, at):
        """The cell's button, scrolled to where the heads of the table do not cover it."""
        b = self.one("cell-%d-%d" % at).find_element(By.TAG_NAME, "button")
        self.driver.execute_script("arguments[0].scrollIntoView({block: 'nearest', inline: 'nearest'})", b)
        return b

    def open_facts(self):
        return self.driver.execute_script(OPEN)

    def waits(self, what, get, wanted):
        """Asks until the answer is there, for two seconds."""
        until = time.time() + 2
        while get() != wanted and time.time() < until:
            time.sleep(0.02)
        self.same(what, get(), wanted)

    def shows(self, what, at):
        self.waits(what + ": open", self.open_facts, ["facts-%d-%d" % at] if at else [])

    def load(self):
        self.driver.execute_cdp_cmd("Emulation.setDeviceMetricsOverride", {
            "width": self.width, "height": self.height, "deviceScaleFactor": 1, "mobile": self.width < 700})
        self.driver.get("about:blank")
        self.driver.get(self.url)

    def point(self, element):
        ActionChains(self.driver).move_to_element(element).perform()

    def press(self, *keys):
        ActionChains(self.driver).send_keys(*keys).perform()

    def away(self):
        """The mouse where there is no cell, and nothing that one shows; the page and the table at their start."""
        self.driver.execute_script("window.scrollTo(0, 0); document.querySelector('.scroll').scrollTo(0, 0)")
        move = ActionBuilder(self.driver)
        move.pointer_action.move_to_location(*self.driver.execute_script(FREE))
        move.perform()

    def cells(self):
        """Word, count and colour of every cell; the totals; nothing open."""
        words = [row["prints"] for row in self.expected.cells.values()]
        numbers = [int(n) for n in re.findall(r"\d+", self.one("totals").text)]
        self.same("totals", numbers, [self.expected.fonts, len(self.expected.banks)] + [words.count(w) for w in WORDS])
        self.same("cells", len(self.find(".cell")), len(words))
        for at, row in self.expected.cells.items():
            b = self.button(at)
            tally = "not read" if row["prints"] == "unreadable" else row["failing"] + " failing"
            self.same("cell %d %d: words" % at, b.text.split("\n"), [row["prints"], tally])
            self.same("cell %d %d: colour" % at, colour_of(b.value_of_css_property("background-color")), COLOURS[row["prints"]])
        self.same("open at first", self.open_facts(), [])
        self.holds("no wider than the window", self.driver.execute_script("return document.documentElement.scrollWidth <= innerWidth"))

    def hover_and_click(self, word):
        at = self.expected.first(word)
        if at is None:
            return
        what, b, facts = "%s cell %d %d" % ((word,) + at), self.button(at), self.one("facts-%d-%d" % at)
        self.point(b)
        self.shows(what + ": hover", at)
        self.holds(what + ": hover: in view", self.driver.execute_script(IN_VIEW, facts))
        text = " ".join(facts.text.split())
        for part in self.expected.parts(self.expected.cells[at]):
            self.holds("%s: shows %r in %r" % (what, part, text), " ".join(part.split()) in text)
        self.away()
        self.shows(what + ": mouse away", None)
        b.click()
        self.away()
        time.sleep(0.3)
        self.shows(what + ": click, mouse away", at)
        self.same(what + ": expanded", b.get_attribute("aria-expanded"), "true")
        self.press(Keys.ESCAPE)
        self.shows(what + ": Escape", None)

    def hover_to_link(self):
        """With no click, across other cells to a link."""
        at = self.expected.first("no")
        links = self.find("#facts-%d-%d a.glyph" % at) if at and self.width >= 700 else []
        if links:
            self.away()
            self.point(self.button(at))
            self.shows("hover before a link", at)
            self.point(links[-1])
            time.sleep(0.3)
            self.shows("mouse on the link", at)
            links[-1].click()
            self.shows("link without a click before", None)
            self.same("its drawing", len(self.find("figure:target")), 1)

    def keys(self):
        """From the box above the table into it."""
        self.driver.execute_script("document.getElementById('only').focus()")
        self.press(Keys.TAB)
        if self.driver.switch_to.active_element.tag_name != "button":
            self.press(Keys.TAB)  # The table's own scrolling may take one.
        self.shows("Tab", (1, 1))
        if len(self.expected.banks) > 1:
            self.press(Keys.ARROW_RIGHT)
            self.shows("right", (1, 2))
            self.press(Keys.ARROW_LEFT)
        if self.expected.fonts > 1:
            self.press(Keys.ARROW_DOWN)
            self.shows("down", (2, 1))
        self.press(Keys.ESCAPE)
        self.shows("Escape", None)
        self.driver.execute_script("document.activeElement.blur()")

    def links(self):
        """Each failing glyph of the first cells: its link, its drawing, and the way back."""
        for at, row in self.expected.cells.items():
            for name, reason in [w for w in row["which"] if w[1] != "missing"][:6]:
                self.away()
                self.button(at).click()
                self.shows("cell %d %d: click" % at, at)
                link = [e for e in self.find("#facts-%d-%d a.glyph" % at) if e.text == text_of(name)]
                self.same("links to %s" % name, len(link), 1)
                if not link:
                    continue
                link[0].click()
                self.followed += 1
                self.paths += self.drawing(at, name, reason)
            if self.followed >= 20:
                break
        self.holds("a drawing with a path", self.paths or not self.followed)

    def drawing(self, at, name, reason):
        what = "drawing of %s" % name
        self.shows(what, None)
        found = self.find("figure:target")
        self.same(what + ": targets", len(found), 1)
        if not found:
            return False
        fig = found[0]
        self.waits(what + ": in view", lambda: self.driver.execute_script(IN_VIEW, fig), True)
        self.holds(what + ": reason and words", said_of(reason) in " ".join(fig.text.split()))
        self.holds(what + ": name", text_of(name) in fig.text)
        path = fig.find_elements(By.CSS_SELECTOR, "path.t1")
        box = self.driver.execute_script("var r = arguments[0].getBoundingClientRect(); return [r.width, r.height]", path[0]) if path else [0, 0]
        drawn = len(path) == 1 and path[0].get_attribute("d").startswith("M") and max(box) > 3
        if self.drawn is not None and self.expected.cells[at]["font"].endswith("gone.pfb"):
            self.same(what + ": drawn", drawn, False)
        elif self.drawn is not None:
            self.same(what + ": drawn", drawn, name in self.drawn)
        if not drawn:
            self.holds(what + ": says why there is none", fig.find_elements(By.CSS_SELECTOR, ".note"))
        back = [e for e in fig.find_elements(By.TAG_NAME, "a") if e.get_attribute("href").endswith("#cell-%d-%d" % at)]
        self.same(what + ": ways back", len(back), 1)
        if back:
            back[0].click()
            self.shows(what + ": way back", at)
            self.press(Keys.ESCAPE)
        return drawn

    def only(self):
        """The box leaves the fonts that some bank does not print."""
        self.away()
        self.one("only").click()
        left = {n for (n, _), row in self.expected.cells.items() if row["prints"] != "yes"}
        self.same("rows left", len([e for e in self.find("#banks > tbody > tr") if e.is_displayed()]), len(left))
        self.one("only").click()

    def printed(self):
        """On paper what fails stands in the cell."""
        at = self.expected.first("no")
        if at:
            self.driver.execute_cdp_cmd("Emulation.setEmulatedMedia", {"media": "print"})
            facts = self.one("facts-%d-%d" % at)
            self.same("printed", (facts.is_displayed(), facts.value_of_css_property("position")), (True, "static"))
            self.driver.execute_cdp_cmd("Emulation.setEmulatedMedia", {"media": ""})

    def quiet(self):
        self.same("console", [e["message"] for e in self.driver.get_log("browser")], [])
        self.same("outside parts", self.driver.execute_script("return performance.getEntriesByType('resource').map(e => e.name)"), [])

    def shot(self, folder, name):
        if folder:
            self.driver.save_screenshot(os.path.join(folder, "%s-%s.png" % (self.name, name)))

    def all(self, shots):
        """Everything; what stops the browser is a difference too."""
        try:
            self.steps(shots)
        except WebDriverException as e:
            self.same("the browser stopped", str(e).split("\n")[0], "")
        print("%s, %d by %d: checks %d, different %d; links followed %d, drawings with a path %d"
              % (self.name, self.width, self.height, self.checks, self.differences, self.followed, self.paths))
        return self.differences

    def steps(self, shots):
        self.load()
        self.cells()
        for word in WORDS:
            self.hover_and_click(word)
        at = self.expected.first("no")
        if shots and at:
            self.button(at).click()
            self.shot(shots, "cell")
            self.press(Keys.ESCAPE)
        self.hover_to_link()
        self.keys()
        self.links()
        self.shot(shots, "drawing")
        self.only()
        self.printed()
        self.quiet()


def browser():
    options = webdriver.ChromeOptions()
    options.binary_location = "/usr/bin/chromium"
    for a in ("--headless=new", "--no-sandbox", "--disable-gpu", "--disable-dev-shm-usage", "--hide-scrollbars"):
        options.add_argument(a)
    options.set_capability("goog:loggingPrefs", {"browser": "ALL"})
    return webdriver.Chrome(service=Service("/usr/bin/chromedriver"), options=options)


def main():
    p = argparse.ArgumentParser(description="Compares the page of banks.py in a browser with its table.")
    for name in ("table", "messages", "banks", "need"):
        p.add_argument("--" + name, metavar="FILE")
    p.add_argument("--page", metavar="PAGE", help="a page that is there already")
    p.add_argument("--shots", metavar="FOLDER", help="where pictures go")
    o = p.parse_args()
    with tempfile.TemporaryDirectory() as folder:
        drawn = None
        if not o.table:
            (o.table, o.messages, o.banks, o.need), _ = test_banks.write_sample(folder)
            drawn = SAMPLE_DRAWN
        page = o.page
        if not page:
            page = os.path.join(folder, "page.html")
            files = [v for name in ("table", "messages", "banks", "need") if getattr(o, name) for v in ("--" + name, getattr(o, name))]
            with open(page, "wb") as f:
                subprocess.run([sys.executable, os.path.join(HERE, "banks.py")] + files, stdout=f, check=True)
        expected = Expected(o.table, o.messages)
        driver = browser()
        try:
            different = sum(Look(driver, "file://" + os.path.abspath(page), expected, size, drawn).all(o.shots) for size in SIZES)
        finally:
            driver.quit()
    sys.exit(1 if different else 0)


if __name__ == "__main__":
    main()
