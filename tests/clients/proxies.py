"""Gateways at ports of their own, and the proxies before them, with the lines of packaging/."""

import getpass
import os
import shutil
import signal
import socket
import subprocess
import time
from pathlib import Path

from harness import EVER, ROOT, Server, holds, same

NGINX = ROOT / "packaging/nginx"
CADDY = ROOT / "packaging/caddy/Caddyfile"
FRONT = 8088
# Metadata with a label, utf-8.
LABELLED = "filename YQ==,from dXRmLTg="
PORTS = {"a": 8081, "b": 8082, "c": 8083, "d": 8084}


class Instance(Server):
    """A gateway at the port that the proxy's lines name."""

    def __init__(self, program, spool, port):
        self.env = None
        self.words = [program, "serve", str(spool), "--port", str(port), "--connections", EVER, "--turns", EVER]
        self.start()


class Nginx:
    """nginx in a folder of its own, with these lines. Its logs are there too."""

    def __init__(self, folder, lines):
        self.folder = Path(folder)
        (self.folder / "snippets").mkdir(parents=True)
        for it in ("wovelatsa-proxy.conf", "wovelatsa-cors.conf"):
            self.write(f"snippets/{it}", (NGINX / it).read_text())
        kinds = ("client_body", "proxy", "fastcgi", "uwsgi", "scgi")
        paths = "".join(f"{it}_temp_path {folder}/{it};\n" for it in kinds)
        # Its workers read password files in a folder of this user's.
        user = f"user {getpass.getuser()};\n" if os.geteuid() == 0 else ""
        head = f"{user}pid {folder}/pid;\nerror_log {folder}/error.log;\nevents {{}}\n"
        self.write("nginx.conf", f"{head}http {{\naccess_log off;\n{paths}include {folder}/lines.conf;\n}}\n")
        self.write("lines.conf", lines.replace("/var/log/nginx", str(folder)))
        self.run()
        wait_for(FRONT)

    def run(self, *words):
        """Runs nginx over its lines, which have to read."""
        words = ["nginx", "-p", f"{self.folder}/", "-c", f"{self.folder}/nginx.conf", *words]
        done = subprocess.run(words, stdout=subprocess.DEVNULL, stderr=subprocess.PIPE, text=True)
        holds(f"nginx: {done.stderr}", done.returncode == 0)

    def write(self, file, text):
        (self.folder / file).write_text(text)

    def change(self, file, old, new):
        """Replaces lines, which stand there once, and makes nginx read them."""
        text = (self.folder / file).read_text()
        same(f"how often {file} has {old!r}", text.count(old), 1)
        self.write(file, text.replace(old, new))
        self.run("-s", "reload")
        time.sleep(1)

    def stop(self):
        """Ends it by its process id, also where its lines don't read any more, and waits until nobody listens."""
        os.kill(int((self.folder / "pid").read_text()), signal.SIGTERM)
        wait_for(FRONT, False)


class Caddy:
    """Caddy before the first instance, with the lines of packaging/caddy, at a port without TLS."""

    def __init__(self, folder, user, password):
        words = ["caddy", "hash-password", "--plaintext", password]
        hashed = subprocess.run(words, check=True, capture_output=True, text=True).stdout.strip()
        lines = CADDY.read_text().replace("127.0.0.1:8080", f"127.0.0.1:{PORTS['a']}")
        lines = lines.replace("archive HASH", f"{user} {hashed}").replace("texts.example.org", f":{FRONT}")
        Path(folder, "Caddyfile").write_text("{\n\tadmin off\n\tauto_https off\n}\n" + lines)
        words = ["caddy", "run", "--adapter", "caddyfile", "--config", f"{folder}/Caddyfile"]
        env = {"HOME": str(folder), "PATH": "/usr/bin:/bin"}
        self.process = subprocess.Popen(words, stderr=subprocess.DEVNULL, env=env)
        wait_for(FRONT)

    def stop(self):
        self.process.kill()
        self.process.wait(60)


def has(program):
    return shutil.which(program) is not None


def lines_for(names):
    """The lines of packaging/nginx with the instances of these names alone."""
    text = (NGINX / "wovelatsa-instances.conf").read_text()
    for name, port in PORTS.items():
        if name not in names:
            text = text.replace(f"    {name} 127.0.0.1:{port};\n", "").replace(f"    25% {name};\n", "")
    last = list(names)[-1]
    return text.replace(f"    25% {last};\n", "").replace("    *   d;", f"    *   {last};")


def wait_for(port, somebody=True):
    """Waits until somebody listens, or nobody."""
    for _ in range(200):
        with socket.socket() as probe:
            if (probe.connect_ex(("127.0.0.1", port)) == 0) == somebody:
                return
        time.sleep(0.05)
    raise TimeoutError(f"{'nobody' if somebody else 'somebody'} listens at {port}")


def instance_of(path):
    return path.split("/")[1]
