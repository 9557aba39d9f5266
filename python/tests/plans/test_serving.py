"""The files that docs/serving.md shows, tried: the site of nginx before a served page, and the unit
of systemd."""

import http.client
import os
import re
import shutil
import socket
import ssl
import subprocess
import unittest
from pathlib import Path

from served_page import ServedPage
from ward import ENOUGH, HELPERS, ROOT

PAGE = (ROOT / "docs" / "serving.md").read_text()
NGINX = shutil.which("nginx", path=f"{os.environ.get('PATH', '')}:/usr/sbin")


def block(kind):
    """The first block of this kind on the page."""
    return re.search(f"```{kind}\n(.*?)```", PAGE, re.S)[1]


def free_port():
    """A port of this machine that nobody has."""
    with socket.socket() as one:
        one.bind(("127.0.0.1", 0))
        return one.getsockname()[1]


@unittest.skipUnless(NGINX and shutil.which("openssl"), "nginx or openssl is not installed")
class Proxy(ServedPage):
    """The page behind the site of nginx, with a certificate of its own, at another port."""

    port = free_port()
    origin = f"https://ward.example:{port}"

    def setUp(self):
        super().setUp()
        self.write_plan()
        certificate = self.folder / "ward.pem"
        key = self.folder / "ward.key"
        words = (
            "-x509",
            "-newkey",
            "rsa:2048",
            "-nodes",
            "-days",
            "2",
            "-subj",
            "/CN=ward.example",
            "-out",
            certificate,
            "-keyout",
            key,
        )
        subprocess.run(["openssl", "req", *map(str, words)], check=True, capture_output=True)
        self.log = self.folder / "ward.log"
        site = block("nginx")
        for old, new in (
            ("listen 443 ssl", f"listen 127.0.0.1:{self.port} ssl"),
            ("/etc/ssl/certs/ward.pem", str(certificate)),
            ("/etc/ssl/private/ward.key", str(key)),
            ("/var/log/nginx/ward.log", str(self.log)),
            ("http://127.0.0.1:8700", f"http://{self.site.netloc}"),
        ):
            self.assertIn(old, site)
            site = site.replace(old, new)
        for name in ("body", "proxy"):
            (self.folder / name).mkdir()
        settings = self.folder / "nginx.conf"
        rooms = f"client_body_temp_path {self.folder}/body; proxy_temp_path {self.folder}/proxy;"
        others = " ".join(
            f"{name}_temp_path {self.folder}/{name};" for name in ("fastcgi", "uwsgi", "scgi")
        )
        user = "user root;\n" if os.geteuid() == 0 else ""
        settings.write_text(
            f"{user}pid {self.folder}/pid;\ndaemon off;\nevents {{}}\nhttp {{\naccess_log"
            f" off;\n{rooms} {others}\n{site}}}\n"
        )
        proxy = subprocess.Popen(
            [NGINX, "-e", str(self.log), "-p", str(self.folder), "-c", str(settings)],
            stderr=subprocess.DEVNULL,
        )
        self.addCleanup(proxy.wait)
        self.addCleanup(proxy.terminate)
        self.waits_for(self.is_open)

    def is_open(self):
        """Whether the proxy hears."""
        try:
            socket.create_connection(("127.0.0.1", self.port), 1).close()
            return True
        except OSError:
            return False

    def status(self, method="GET", path=None, body=None, **headers):
        """The status of an answer of the proxy, and where it leads."""
        context = ssl.create_default_context()
        context.check_hostname = False
        context.verify_mode = ssl.CERT_NONE
        connection = http.client.HTTPSConnection(
            "127.0.0.1", self.port, timeout=ENOUGH, context=context
        )
        kind = {"Content-Type": "application/x-www-form-urlencoded"} if body else {}
        connection.request(
            method,
            path or self.site.path,
            body,
            {"Host": f"ward.example:{self.port}", **kind, **headers},
        )
        answer = connection.getresponse()
        answer.read()
        connection.close()
        return answer.status, answer.headers.get("Location")

    def test_the_site_of_nginx(self):
        self.assertEqual(self.status(), (200, None))
        self.assertEqual(self.status(path="/")[0], 403)
        self.assertEqual(self.status(path=f"{self.site.path}wall")[0], 200)
        form = f"verb=undo&stamp={self.stamp}"
        led = self.status("POST", body=form, Origin=self.origin)
        self.assertTrue(led[0] == 303 and led[1].startswith(f"{self.site.path}?verb=undo"), led)
        for headers in (
            {"Origin": "https://evil.example"},
            {"Host": "evil.example"},
            {"Origin": f"http://{self.site.netloc}"},
        ):
            self.assertEqual(self.status("POST", body=form, **headers)[0], 403)
        self.assertEqual(self.status("POST", body="a" * 20_000)[0], 413)
        # Without the proxy nobody gets in by the name of the machine itself.
        self.assertEqual(self.asks(path=self.site.path, Host=self.site.netloc)[0], 403)
        logged = "".join(path.read_text(errors="replace") for path in self.folder.glob("*.log"))
        self.assertNotIn(self.site.path.strip("/"), logged)


@unittest.skipUnless(shutil.which("systemd-analyze"), "systemd-analyze is not installed")
class Unit(ServedPage):
    def test_the_unit_of_systemd(self):
        unit = (
            block("ini")
            .replace("/usr/bin/inrc2pb-plan", str(HELPERS / "inrc2pb-plan"))
            .replace("User=ward", "User=root")
        )
        path = Path(self.folder) / "inrc2pb-ward.service"
        path.write_text(unit)
        ran = subprocess.run(
            ["systemd-analyze", "verify", "--man=no", str(path)], capture_output=True, text=True
        )
        said = [line for line in ran.stderr.splitlines() if "inrc2pb-ward" in line]
        self.assertEqual((ran.returncode, said), (0, []), ran.stderr)

    def test_the_words_of_the_unit_are_those_of_the_command(self):
        words = re.search("ExecStart=/usr/bin/inrc2pb-plan /srv/ward (.*)", block("ini"))[1].split()
        self.assertEqual(words[:1] + words[1::2], ["serve", "--port", "--origin", "--secret"])


if __name__ == "__main__":
    unittest.main()
