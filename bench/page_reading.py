"""The pages of one desk in a browser, each of a user of its own. A module."""
import json

from chromium import Page
from desk_file import check
from paged_desk import PASSWORDS


class Reading:
    """What is opened, waited for, and looked at of each page at its end."""

    def __init__(self, desk, browser):
        self.desk, self.browser = desk, browser

    def open(self, user, where, ready, width=1400, height=1000):
        page = Page(self.browser, user, PASSWORDS[user], width, height)
        page.load(f"https://127.0.0.1:{self.desk.port}/page/{where}", f"document.querySelector('{ready}')?.checkVisibility()")
        return page

    def submit(self, page, times=1):
        """Presses Submit, once the code is shown: before that it can't be pressed."""
        page.until("!document.querySelector('[data-do=submit]').disabled")
        page.click("[data-do=submit]", times=times)

    def told(self, page, text):
        page.until(f"document.getElementById('answer').textContent.startsWith({json.dumps(text)})")

    def end(self, page):
        """What holds of each page at the end: it is as narrow as it should be at both widths, and no script of others ran."""
        for width in (360, 1400):
            page.resize(width, 1000)
            check(page.run("document.documentElement.scrollWidth <= innerWidth"), "too wide", width, page.run("document.title"))
        check(not page.faults, page.faults)
