"""The pages that are there: one has control, the others watch.

Another one takes control when it is given, or when the page that had it has been gone for ten seconds. A page that comes back, as after it was loaded anew, has its
control again. Where no page has been there for ten seconds the line is told."""
import itertools
import time

GONE = 10.0  # seconds
MOST = 8  # pages at once
A_SECOND = 40  # commands of a page in a second, at most


class Page:
    """A page: what it has been sent, and whether it shows the digits of cards."""

    def __init__(self, number, key):
        self.number, self.key, self.is_revealed, self.shows_all = number, key, False, False
        self.versions, self.bucket = {}, -1
        self.since, self.commands = time.monotonic(), 0

    def may_command(self):
        """Whether this isn't one command too many in a second."""
        now = time.monotonic()
        if now > self.since + 1.0:
            self.since, self.commands = now, 0
        self.commands += 1
        return self.commands <= A_SECOND


class Pages:
    """All pages. `tells` gets `somebody` and `nobody`."""

    def __init__(self, tells):
        self.tells, self.each, self.numbers = tells, {}, itertools.count(1)
        self.holder, self.gone_at, self.empty_since = None, None, None  # the key that has control; since when its page is gone, or none is there
        self.was_told, self.version = True, 1

    def comes(self, key):
        """A new page. None where there are as many as there may be."""
        if len(self.each) >= MOST:
            return None
        page = Page(next(self.numbers), key)
        self.each[page.number] = page
        if self.holder == key:
            self.gone_at = None
        elif self.may_take():
            self.holder, self.gone_at = key, None
        if self.empty_since is not None and not self.was_told:
            self.tells("somebody")
        self.empty_since, self.was_told = None, True
        self.version += 1
        return page

    def goes(self, page):
        self.each.pop(page.number, None)
        if page.key == self.holder and not any(each.key == self.holder for each in self.each.values()):
            self.gone_at = time.monotonic()
        if not self.each:
            self.empty_since, self.was_told = time.monotonic(), True
        self.version += 1

    def may_take(self):
        """Whether a page may take control now."""
        return self.holder is None or (self.gone_at is not None and time.monotonic() >= self.gone_at + GONE)

    def takes(self, page):
        if self.may_take():
            self.holder, self.gone_at = page.key, None
            self.version += 1

    def gives(self, page):
        if self.has_control(page):
            self.holder, self.gone_at = None, None
            self.version += 1

    def has_control(self, page):
        return page.key == self.holder

    def looks(self):
        """Tells once that no page has been there for a while, and when control may be taken."""
        if self.empty_since is not None and self.was_told and time.monotonic() >= self.empty_since + GONE:
            self.was_told = False
            self.tells("nobody")
        if self.gone_at is not None and self.each:
            self.version += 1

    def shown(self, page):
        """What a page knows of the others."""
        wait = 0 if self.may_take() else None if self.gone_at is None else max(0, round(self.gone_at + GONE - time.monotonic()))
        return {"control": self.has_control(page), "pages": len(self.each), "revealed": page.is_revealed, "free": self.may_take(), "wait": wait}
