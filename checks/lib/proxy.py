"""nginx before the program, by examples/nginx.conf, with a certificate that it has signed itself."""
import os
import shutil
import subprocess
from collections.abc import Iterable

from lib.files import EXAMPLES
from lib.server import free_port

PROGRAMS = ("nginx", "openssl")
UPLOADS = "set $uploads shut;"

Change = tuple[str, str]  # a text of the example, and the one in its place
OPENED: Change = (UPLOADS, UPLOADS.replace("shut", "open"))

# Limits far above what a check asks for.
UNLIMITED: list[Change] = [
    *((f"rate={rate};", "rate=10000r/s;") for rate in ("10r/s", "30r/m", "5r/s")),
    *((f"burst={burst} ", "burst=10000 ") for burst in (150, 20, 100)),
]

NGINX = """daemon off;
{user}
pid {root}/nginx.pid;
error_log {root}/nginx.log;
events {{ }}
http {{
    access_log off;
    client_body_temp_path {root}/nginx-body;
    proxy_temp_path {root}/nginx-proxy;
    fastcgi_temp_path {root}/nginx-fastcgi;
    uwsgi_temp_path {root}/nginx-uwsgi;
    scgi_temp_path {root}/nginx-scgi;
    include {root}/tacho.conf;
}}
"""


def missing() -> list[str]:
    """Which of the programs that a proxy needs aren't installed."""
    return [name for name in PROGRAMS if not shutil.which(name)]


def example() -> str:
    """The text of examples/nginx.conf."""
    with open(os.path.join(EXAMPLES, "nginx.conf"), encoding="utf-8") as file:
        return file.read()


class Proxy:
    """nginx in a folder: at a port, before the service at another port."""

    def __init__(self, root: str, port: int, service: int, changes: Iterable[Change] = ()) -> None:
        """Starts nginx. `changes` are texts of the example that are replaced: each has to be in it."""
        text = example()
        own = [("listen 443", f"listen 127.0.0.1:{port}"), ("/etc/nginx/", f"{root}/"), ("127.0.0.1:8017", f"127.0.0.1:{service}"),
               ("127.0.0.1:8018", f"127.0.0.1:{free_port()}"), ("/run/tacho-keys", f"{root}/keys")]
        for old, new in [*own, *changes]:
            if old not in text:
                raise RuntimeError(f"examples/nginx.conf has no '{old}'")
            text = text.replace(old, new)
        os.makedirs(root, exist_ok=True)
        with open(os.path.join(root, "tacho.conf"), "w", encoding="utf-8") as file:
            file.write(text)
        with open(os.path.join(root, "nginx.conf"), "w", encoding="utf-8") as file:
            file.write(NGINX.format(root=root, user="user root;" if os.getuid() == 0 else ""))
        if not os.path.exists(os.path.join(root, "tacho.key")):
            subprocess.run(["openssl", "req", "-x509", "-newkey", "rsa:2048", "-nodes", "-subj", "/CN=tacho.example.org", "-keyout",
                            f"{root}/tacho.key", "-out", f"{root}/tacho.crt"], check=True, capture_output=True)
        self.port = port
        self.process = subprocess.Popen(["nginx", "-p", root, "-c", f"{root}/nginx.conf"], stdin=subprocess.DEVNULL, stderr=subprocess.DEVNULL)

    def __enter__(self) -> "Proxy":
        return self

    def __exit__(self, *_: object) -> None:
        """Ends nginx, and waits for it."""
        self.process.terminate()
        self.process.wait()
