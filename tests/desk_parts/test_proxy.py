"""The test of the desk behind nginx, with the configuration package/nginx.conf."""

import contextlib
import http.client
import json
import os
import pathlib
import shutil
import socket
import ssl
import subprocess
import tempfile

import pytest
from desk_parts.shared import LINE, PATIENCE, TOP, inputs, until
from desk_parts.tokens import made

NAME = "desk.example.org"
WHOLE = """daemon off;
pid nginx.pid;
error_log stderr;
events {{}}
http {{
    access_log off;
    client_body_temp_path body;
    proxy_temp_path proxy;
    fastcgi_temp_path fastcgi;
    uwsgi_temp_path uwsgi;
    scgi_temp_path scgi;
{site}
}}
"""


def nginx():
    """The program, and that which makes a certificate."""
    found = shutil.which("nginx", path=os.environ.get("PATH", "") + ":/usr/sbin")
    if found is None or shutil.which("openssl") is None:
        pytest.skip("there is no nginx: apt-get install nginx openssl")
    return found


@contextlib.contextmanager
def before(it, folder):
    """nginx before a desk. Gives its port."""
    with socket.create_server(("127.0.0.1", 0)) as spare:
        port = spare.getsockname()[1]
    subprocess.run(["openssl", "req", "-x509", "-newkey", "rsa:2048", "-nodes", "-days", "2", "-subj", f"/CN={NAME}", "-addext",
                    f"subjectAltName=DNS:{NAME}", "-keyout", folder / "key", "-out", folder / "pem"], check=True,
                   capture_output=True)
    site = (TOP / "package" / "nginx.conf").read_text()
    for old, new in (("listen 443", f"listen 127.0.0.1:{port}"), ("127.0.0.1:8000", f"127.0.0.1:{it.port}"),
                     (f"/etc/ssl/{NAME}.pem", str(folder / "pem")), (f"/etc/ssl/{NAME}.key", str(folder / "key"))):
        assert site.count(old) == 1, old
        site = site.replace(old, new)
    (folder / "conf").write_text(WHOLE.format(site=site))
    with open(folder / "said", "w", encoding="utf-8") as said:
        child = subprocess.Popen([nginx(), "-p", str(folder), "-e", "stderr", "-c", str(folder / "conf")], stderr=said)
    try:
        until(lambda: child.poll() is not None or answers(port), "nginx answers")
        assert child.poll() is None, (folder / "said").read_text()
        yield port
    finally:
        child.terminate()
        child.wait()


def answers(port):
    """Whether something listens at a port."""
    with contextlib.suppress(OSError), socket.create_connection(("127.0.0.1", port)):
        return True


class ByName(http.client.HTTPSConnection):
    """A connection to nginx under the desk's name, with its certificate held to."""

    def __init__(self, port, folder):
        super().__init__(NAME, port, timeout=PATIENCE, context=ssl.create_default_context(cafile=folder / "pem"))

    def connect(self):
        plain = socket.create_connection(("127.0.0.1", self.port), self.timeout)
        self.sock = self._context.wrap_socket(plain, server_hostname=self.host)


def call(port, folder, method, path, token=None, body=None):
    """A call through nginx: its status and answer."""
    connection = ByName(port, folder)
    headers = {"host": NAME, **({"authorization": f"Bearer {token}"} if token else {})}
    if body is not None:
        headers["content-type"] = "application/json"
    connection.request(method, path, None if body is None else json.dumps(body), headers)
    answer = connection.getresponse()
    if path == "/events" and answer.status == 200:
        return answer.status, answer.read(12)
    return answer.status, json.loads(answer.read())


def test_the_desk_stands_behind_nginx_with_tls(desk):
    nginx()
    with tempfile.TemporaryDirectory() as place:
        folder = pathlib.Path(place)
        os.chmod(folder, 0o755)
        token = made(folder / "tokens", "role=dispatcher")
        with desk(*inputs(LINE), f"tokens={folder}/tokens", f"name={NAME}") as it, before(it, folder) as port:
            assert call(port, folder, "GET", "/health")[0] == 200
            assert call(port, folder, "GET", "/rides")[0] == call(port, folder, "POST", "/rides", None, {})[0] == 401
            assert call(port, folder, "POST", "/rides", token, {"from": 2, "to": 4})[1]["ride"] == 1
            assert call(port, folder, "GET", "/rides", token)[1][0]["state"] == "waiting"
            assert call(port, folder, "GET", "/events", token) == (200, b"event: state")
