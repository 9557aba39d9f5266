"""The local page of a ward's folder, served for a test."""

import contextlib
import http.client
import threading
import time
from urllib.parse import urlencode, urlsplit

from test_plans import FolderTest
from ward import ENOUGH

from inrc2pb.page.jobs import Jobs
from inrc2pb.page.server import LocalServer
from inrc2pb.plans.ward_folder import WardFolder
from inrc2pb.programs.interrupts import interrupts


class ServedPage(FolderTest):
    """A folder whose page is served, as `origin` if there is one. A form that a test sends has the
    stamp of the plan, if it has none of its own."""

    origin = ""

    def setUp(self):
        super().setUp()
        stack = contextlib.ExitStack()
        self.addCleanup(stack.close)
        signals = stack.enter_context(interrupts())
        self.jobs = Jobs(WardFolder(self.ward), signals, float(ENOUGH))
        server = LocalServer(self.jobs, "127.0.0.1", 0, self.origin)
        self.address = server.address
        self.site = urlsplit(f"http://127.0.0.1:{server.port}{urlsplit(server.address).path}")
        # The address that the browser shows.
        self.shown = self.site.path
        thread = threading.Thread(target=server.run, args=(signals,))
        thread.start()
        self.addCleanup(thread.join)
        self.addCleanup(signals.take, 2)

    @property
    def stamp(self):
        """The stamp of the plan that holds."""
        return self.jobs.folder.stamp

    def plans(self):
        """The numbers of the plans that hold, one after another."""
        return sorted(path.name[:4] for path in (self.ward / "plans").glob("0*"))

    def asks(self, method="GET", path=None, form=None, **headers):
        """The status and the text of an answer. Without a path the browser loads its page again; a
        form leads it to another one, which is the answer if it is a question."""
        path = path or (self.shown if method == "GET" else self.site.path)
        form = (
            f"{form}&stamp={self.stamp}"
            if form and form.startswith("verb=") and "stamp=" not in form
            else form
        )
        connection = http.client.HTTPConnection(self.site.netloc, timeout=ENOUGH)
        given = {name.replace("_", "-"): value for name, value in headers.items()}
        kind = {"Content-Type": "application/x-www-form-urlencoded"} if form is not None else {}
        connection.request(method, path, form, {**kind, **given})
        answer = connection.getresponse()
        text = answer.read().decode()
        connection.close()
        self.shown = answer.headers.get("Location", self.shown)
        led = self.asks() if answer.status == 303 else (303, "")
        return led if "Yes, write it" in led[1] else (answer.status, text)

    def sends(self, **fields):
        """Sends a form, and says yes if it writes, waits for the end of its verb, and returns the
        page."""
        form = urlencode(
            {name.replace("_", " "): value for name, value in {**fields, "sure": "yes"}.items()}
        )
        self.assertEqual(self.asks("POST", form=form)[0], 303)
        return self.ended()

    def ended(self):
        """Waits for the end of the verb that runs, and returns the page."""
        self.waits_for(lambda: not self.jobs.runs)
        return self.asks()[1]

    def waits_for(self, ends):
        """Waits until this is so."""
        limit = time.monotonic() + ENOUGH
        while not ends():
            self.assertLess(time.monotonic(), limit)
            time.sleep(0.01)
