"""A page of `sqzlook explore` that is open in a browser, and the data of a page."""

import json
import re
import time

WIDTH, HEIGHT = 1200, 800
# How long a page may take to read its data, in seconds.
SECONDS = 60
BLOCK = re.compile(r'<script type="application/json" class="(\w+)">\n(.*?)</script>\n', re.DOTALL)
# The cells of a table by its identifier, and the links of a list.
CELLS = """Array.from(document.querySelectorAll("#%s tbody tr"), (row) =>
  Array.from(row.cells, (cell) => cell.textContent))"""
LINKS = 'Array.from(document.querySelectorAll("#%s a"), (it) => it.hash.split("/")[1])'
FACTS = """Object.fromEntries(Array.from(document.querySelectorAll(".facts > div"), (it) =>
  [it.firstChild.textContent, it.lastChild.textContent]))"""
IS_READY = 'document.documentElement.dataset.ready === "yes"'


def data_in(page):
    """The data of a page: the kind of each line, and its value. What is no block is the page."""
    start = page.index('<script type="application/json" class="image">\n')
    data, rows = page[start:], []
    for kind, lines in BLOCK.findall(data):
        rows += [(kind, json.loads(line)) for line in lines.splitlines()]
    if BLOCK.sub("", data):
        raise ValueError("text between the blocks")
    return page[:start], rows


class ExploredPage:
    """A page in a browser."""

    def __init__(self, browser, path, is_whole=True):
        self.browser = browser
        browser.load(path, WIDTH, HEIGHT)
        if is_whole:
            self.wait_for(IS_READY)

    def wait_for(self, condition):
        """Waits until a condition holds in the page."""
        end = time.monotonic() + SECONDS
        while not self.browser.value(condition):
            if time.monotonic() > end:
                raise TimeoutError(condition)
            time.sleep(0.02)

    def go(self, address):
        """Shows a view by its address."""
        self.browser.value(f"location.hash = {json.dumps(address)}; 0")
        self.wait_for(f"location.hash === {json.dumps(address)}")
        # the page follows in an event of its own
        self.browser.value("0")
        time.sleep(0.05)

    @property
    def address(self):
        return self.browser.value("location.hash")

    @property
    def heading(self):
        return self.browser.value('document.querySelector("h2").textContent')

    def text(self, selector):
        """The text of the first element that a selector finds."""
        return self.browser.value(f"document.querySelector({json.dumps(selector)})?.textContent")

    def lines(self, selector):
        """The texts of the elements that a selector finds."""
        words = json.dumps(selector)
        return self.browser.value(
            f"Array.from(document.querySelectorAll({words}), (it) => it.textContent)"
        )

    def cells(self, table):
        """The texts of the cells of a table, after its button was pressed until all rows show."""
        more = f'document.querySelector("#{table}")?.closest("div").nextSibling?.firstChild'
        while self.browser.value(f'{more} && !{more}.hidden ? ({more}.click(), true) : false'):
            pass
        return self.browser.value(CELLS % table)

    def links(self, place):
        """The addresses of the objects that a list or a table links to."""
        return self.browser.value(LINKS % place)

    def facts(self):
        """The facts of a view by their names."""
        return self.browser.value(FACTS)

    def press(self, *keys):
        for key in keys:
            self.browser.press(key)
        time.sleep(0.05)
