"""The site with a login in examples/service, before the guest book that it is for: nginx asks for the password and tells the name."""
import http.client
import os
import shutil
import socket
import subprocess
import tempfile
import time
import unittest
from base64 import b64encode
from pathlib import Path

import context
from urweb_companion import program

SITE = context.EXAMPLES / "service" / "login.conf"
BOOK = context.EXAMPLES / "guestbook" / "12-login" / "guestbook.urp"
SECONDS, HERE = 60, "https://guestbook.example"
CONF = """%serror_log %s/error.log; pid %s/pid; daemon off; worker_processes 1; events {}
http { access_log off; %s
%s }
"""


def free_port() -> int:
    with socket.create_server(("127.0.0.1", 0)) as taken:
        port: int = taken.getsockname()[1]
        return port


def site(folder: Path, port: int, server: int) -> str:
    """Returns the site without its certificate, with other ports and files. Each part that is changed must stand in it."""
    text = SITE.read_text(encoding="utf-8")
    for old, new in [("listen 443 ssl http2;", f"listen 127.0.0.1:{port};"), ("127.0.0.1:8080", f"127.0.0.1:{server}"),
                     ("ssl_certificate     /etc/ssl/certs/guestbook.pem;", ""), ("ssl_certificate_key /etc/ssl/private/guestbook.key;", ""),
                     ("/etc/nginx/guestbook.users", f"{folder}/users"), ("/srv/guestbook", str(folder))]:
        assert text.count(old) == 1, old
        text = text.replace(old, new)
    return text


def listens(port: int) -> None:
    """Waits until somebody listens on a port."""
    end = time.monotonic() + SECONDS
    while True:
        try:
            socket.create_connection(("127.0.0.1", port), 1).close()
            return
        except OSError:
            if time.monotonic() > end:
                raise
            time.sleep(0.1)


@unittest.skipUnless(shutil.which("nginx"), "this machine has no nginx")
class Login(unittest.TestCase):
    def setUp(self) -> None:
        made = tempfile.TemporaryDirectory()
        self.addCleanup(made.cleanup)
        folder = Path(made.name)
        self.port, server = free_port(), free_port()
        for name in ("ann", "bob"):
            with (folder / "users").open("a", encoding="utf-8") as users:
                users.write(f"{name}:{{PLAIN}}secret-{name}\n")
        (folder / "style.css").write_text("body { margin: 2em }\n", encoding="utf-8")
        temporary = " ".join(f"{kind}_temp_path {folder}/{kind};" for kind in ("client_body", "proxy", "fastcgi", "uwsgi", "scgi"))
        user = "user root; " if os.getuid() == 0 else ""
        conf = CONF % (user, folder, folder, temporary, site(folder, self.port, server))
        (folder / "nginx.conf").write_text(conf, encoding="utf-8")
        self.start([str(program.find()), "serve", str(BOOK), "--port", str(server)], server)
        self.start(["nginx", "-p", str(folder), "-e", str(folder / "error.log"), "-c", str(folder / "nginx.conf")], self.port)

    def start(self, words: list[str], port: int) -> None:
        process = subprocess.Popen(words, stdin=subprocess.DEVNULL, stdout=subprocess.DEVNULL)
        self.addCleanup(process.wait, SECONDS)
        self.addCleanup(process.terminate)
        listens(port)

    def ask(self, method: str, path: str, who: str = "", body: str = "", more: dict[str, str] | None = None) -> tuple[int, str]:
        """Asks, again where nginx says that the server did not answer in time."""
        headers = {"Content-Type": "application/x-www-form-urlencoded", **(more or {})}
        if who:
            headers["Authorization"] = "Basic " + b64encode(f"{who}:secret-{who}".encode()).decode()
        for _ in range(5):
            connection = http.client.HTTPConnection("127.0.0.1", self.port, timeout=SECONDS)
            connection.request(method, path, body.encode(), headers)
            answer = connection.getresponse()
            text = answer.read().decode()
            connection.close()
            if answer.status not in (502, 504):
                break
        return answer.status, text

    def test_a_name_comes_from_the_password_alone(self) -> None:
        self.assertEqual(self.ask("GET", "/Guestbook/main")[0], 401)
        self.assertEqual(self.ask("GET", "/Guestbook/main", more={"Cookie": "Guestbook.user=ann"})[0], 401)
        status, page = self.ask("POST", "/Guestbook/add", "ann", "Body=Hello", {"Origin": HERE})
        self.assertEqual(status, 200)
        self.assertIn("<p>ann: Hello</p><form", page)
        self.assertIn('<link rel="stylesheet" href="/style.css"/></head>', page)
        page = self.ask("GET", "/Guestbook/main", "bob", more={"Cookie": "Guestbook.user=ann"})[1]
        self.assertIn("<p>ann: Hello</p><form method=\"post\">bob: ", page)
        self.assertIn("ann: Hello", self.ask("POST", "/Guestbook/drop/1", "bob", more={"Cookie": "Guestbook.user=ann"})[1])
        self.assertEqual(self.ask("POST", "/Guestbook/drop/1", "ann", more={"Origin": "https://elsewhere.example"})[0], 403)
        self.assertNotIn("ann: Hello", self.ask("POST", "/Guestbook/drop/1", "ann")[1])
        self.assertEqual(self.ask("GET", "/style.css")[0], 200)


if __name__ == "__main__":
    unittest.main()
