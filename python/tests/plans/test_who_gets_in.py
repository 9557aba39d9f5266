"""Tests of a ward's folder that several people may write, and of its address: what a link in it
leads to is neither read nor written, and the secret of the address is kept where nobody else reads
it."""

import builtins
import contextlib
import io
import os
import random
import re
import shutil
import stat
import unittest
from unittest import mock

from served_page import ServedPage
from test_folder_pages import FolderPages
from test_plans import FolderTest
from ward import run

from inrc2pb.page.server import LocalServer
from inrc2pb.programs.secrets_file import kept_secret
from inrc2pb.week.faults import Misuse
from inrc2pb.week.own_files import own_bytes

NO_LINK = "is a link, and no link is followed here: put what it leads to in its place, or delete it"


class Links(FolderTest):
    """A folder with links to a file and a folder that only its user may read."""

    def setUp(self):
        super().setUp()
        self.write_plan()
        self.outside = self.folder / "outside.txt"
        self.others = self.folder / "others"
        self.outside.write_text("mine")
        self.others.mkdir()

    def assert_refused(self, says, *words):
        """The verb ends with one sentence, and what lies outside is as it was."""
        status, printed, said = run("plan", self.ward, *words)
        self.assertEqual((status != 0, printed), (True, ""), said)
        self.assertEqual(said.count("\n"), 1)
        self.assertIn(says, said)
        self.assertEqual((self.outside.read_text(), list(self.others.iterdir())), ("mine", []))

    def test_the_folder_of_the_plans(self):
        for name in ("", "lock", "undone"):
            with self.subTest(name):
                path = self.ward / "plans" / name
                if name != "lock":
                    shutil.rmtree(path, ignore_errors=True)
                path.unlink(missing_ok=True)
                path.symlink_to(self.outside if name == "lock" else self.others)
                self.assert_refused(f"{path} {NO_LINK}", "undo" if name else "over")
                path.unlink()
                self.write_plan()

    def test_the_folder_of_a_plan_is_none(self):
        self.last().rename(self.others / "x")
        (self.ward / "plans" / "0009-2026-11-28-1200-plan").symlink_to(self.others / "x")
        status, _, said = run("plan", self.ward, "page")
        self.assertEqual(status, 1)
        self.assertIn("has no plan yet", said)

    def test_a_file_of_a_plan(self):
        for name in ("plan.json", "roster-0.txt", "history-0.txt", "start.txt", "ward.txt"):
            with self.subTest(name):
                path = self.last() / name
                text = path.read_text()
                path.unlink()
                path.symlink_to(self.outside)
                self.assert_refused(
                    (
                        f"{name}: this is a link, and no link is followed here: delete it, or type"
                        " undo"
                    ),
                    "page",
                )
                path.unlink()
                # Who reads a pipe waits for its writer.
                os.mkfifo(path)
                self.assert_refused(f"{name}: this is no file: delete it, or type undo", "page")
                path.unlink()
                path.write_text(text)

    def test_the_spreadsheet(self):
        for name in ("needs.csv", "ward.ods"):
            with self.subTest(name):
                path = self.ward / name
                path.unlink(missing_ok=True)
                path.symlink_to(self.outside)
                self.assert_refused(
                    f"{path} is a link that leads out of the folder: put the file itself there",
                    "check",
                )
                path.unlink()
                self.write()
        # A link that stays in the folder is as good as a file.
        (self.ward / "needs.csv").rename(self.ward / "plans" / "needs.csv")
        (self.ward / "needs.csv").symlink_to("plans/needs.csv")
        self.assertEqual(run("plan", self.ward, "check")[0], 0)

    def test_the_text_files_of_a_ward(self):
        for name in ("ward.txt", "history-0.txt", "facts.txt", "week-1.txt"):
            (self.ward / name).symlink_to(self.outside)
        (self.ward / "history-1.txt").symlink_to(self.outside)
        status, _, said = run("plan", self.ward, "files")
        self.assertEqual((status, self.outside.read_text()), (0, "mine"), said)
        self.assertTrue(
            (self.ward / "ward.txt").read_text().startswith("SCENARIO")
            and not (self.ward / "ward.txt").is_symlink()
        )

    def test_the_example(self):
        new = self.folder / "new"
        new.mkdir()
        (new / "ward.ods").symlink_to(self.folder / "made")
        status, _, said = run("plan", new, "new")
        self.assertEqual((status, (self.folder / "made").exists()), (1, False), said)
        self.assertIn("there is such a file", said)

    def test_a_link_that_comes_between_the_look_and_the_reading(self):
        (self.ward / "calendars").mkdir()
        (self.ward / "calendars" / "Chen.ics").symlink_to(self.outside)
        (self.others / "Finn.ics").symlink_to(self.outside)
        (self.ward / "linked").symlink_to(self.folder)
        os.mkfifo(self.ward / "pipe")
        for name in ("calendars/Chen.ics", "linked/outside.txt", "pipe", "calendars", "nothing"):
            with self.subTest(name), self.assertRaises(OSError):
                own_bytes(self.ward, name)
        self.assertTrue(own_bytes(self.ward, "plan.csv").startswith(b"nurse,"))


class LinkedPages(FolderPages):
    def test_a_link_that_comes_back_at_once(self):
        """Another one's program makes the pages links before a verb, and again just before they are
        opened or replaced: what they lead to stays as it was."""
        outside = self.folder / "outside.txt"
        outside.write_text("mine")
        pages = (self.ward / "roster.html", self.ward / "wall.html")
        replaced = set()

        def link(*paths):
            for path in paths:
                path.unlink(missing_ok=True)
                path.symlink_to(outside)

        def after_a_link(call):
            def calls(*words, **options):
                found = [page for page in pages if str(page) in map(str, words)]
                link(*found)
                replaced.update(page for page in found if call.__name__ == "replace")
                return call(*words, **options)

            return calls

        with contextlib.ExitStack() as patches:
            for where, name in ((builtins, "open"), (io, "open"), (os, "open"), (os, "replace")):
                changed = mock.patch.object(where, name, after_a_link(getattr(where, name)))
                patches.enter_context(changed)
            link(*pages)
            self.page()
            link(*pages)
            self.change(random.Random(1))
        self.assertEqual((outside.read_text(), replaced), ("mine", set(pages)))


class Secret(FolderTest):
    def setUp(self):
        super().setUp()
        self.path = self.folder / "secret"

    def test_it_is_made_once_and_read_by_nobody_else(self):
        secret = kept_secret(self.path)
        self.assertEqual(stat.S_IMODE(self.path.stat().st_mode), 0o600)
        self.assertRegex(secret, "^[A-Za-z0-9_-]{22}$")
        self.assertEqual((kept_secret(self.path), self.path.read_text()), (secret, f"{secret}\n"))
        addresses = []
        with mock.patch.object(LocalServer, "run"):
            for _ in range(2):
                status, printed, _ = run(
                    "plan", self.ward, "serve", "--secret", self.path, "--port", "0"
                )
                self.assertEqual(status, 0)
                addresses.append(re.search("http://[^ ]*", printed)[0].split("/")[3])
        self.assertEqual(addresses, [secret, secret])

    def test_a_file_that_others_may_read_or_write(self):
        def linked():
            (self.folder / "real").write_text("x" * 22)
            self.path.symlink_to(self.folder / "real")

        for says, make in (
            (
                "others may read this file: type chmod 600, or delete it",
                lambda: (self.path.write_text("x" * 22), self.path.chmod(0o640)),
            ),
            ("this is a link: name the file itself", linked),
            ("this is no file: name another one", lambda: os.mkfifo(self.path, 0o600)),
            ("this file has no secret", lambda: (self.path.write_text(""), self.path.chmod(0o600))),
            (
                "this file has no secret",
                lambda: (self.path.write_text("/../" * 9), self.path.chmod(0o600)),
            ),
        ):
            with self.subTest(says):
                make()
                with self.assertRaisesRegex(Misuse, says):
                    kept_secret(self.path)
                self.path.unlink()
        self.path.write_text("x" * 22)
        self.path.chmod(0o600)
        with mock.patch("os.geteuid", return_value=os.geteuid() + 1), self.assertRaisesRegex(
            Misuse, "this file is another user's"
        ):
            kept_secret(self.path)

    def test_it_is_not_kept_in_the_folder_of_the_ward(self):
        says = (
            f"--secret {self.ward}/secret is in the ward's folder, which others may read: name a"
            " file elsewhere\n"
        )
        self.assert_fault(
            run("plan", self.ward, "serve", "--secret", self.ward / "secret"),
            f"inrc2pb-plan: {says.rstrip()}",
        )
        self.assertFalse((self.ward / "secret").exists())


class Gone(ServedPage):
    """A folder on a network share that is gone, and comes back."""

    def test_each_request_gets_one_sentence(self):
        self.write_plan()
        page = self.asks()[1]
        away = self.folder / "away"
        with mock.patch("sys.stderr", io.StringIO()) as printed:
            self.ward.rename(away)
            for words in (
                {},
                {"path": f"{self.site.path}roster"},
                {"path": f"{self.site.path}calendars/Chen.ics"},
                {"path": f"{self.site.path}?nurse=Chen&day=4"},
                {"method": "POST", "form": "verb=undo&stamp=x"},
                {"method": "POST", "form": "verb=check&sure=yes"},
            ):
                with self.subTest(words):
                    status, text = self.asks(**words)
                    text = self.ended() if status == 303 else text
                    self.assertTrue(status in (303, 503), status)
                    self.assertIn(
                        (
                            "No such file or directory: nothing is lost: see that the ward&#x27;s"
                            " folder is there again"
                        ),
                        text,
                    )
            away.rename(self.ward)
            self.shown = self.site.path
            self.assertEqual(
                (self.asks()[0], "To the roster" in self.asks()[1]), (200, "To the roster" in page)
            )
        self.assertEqual(printed.getvalue(), "")


if __name__ == "__main__":
    unittest.main()
