"""A fresh Debian in a folder, in which no service manager runs, and the gateways of the units that it has."""

import re
import select
import socket
import subprocess
from pathlib import Path

from harness import Wrong, holds, same

SUITE = "bookworm"
UNITS = "/usr/lib/systemd/system"
SETTINGS = "/etc/wovelatsa"
CLEAN = {"PATH": "/usr/sbin:/usr/bin:/sbin:/bin", "LC_ALL": "C", "DEBIAN_FRONTEND": "noninteractive"}
# Runs a command in a root, with a /proc that nobody else sees.
WITHIN = 'mount -t proc proc "$0/proc" && exec chroot "$0" "$@"'
# How long something is waited for, in seconds.
PATIENCE = 120


class Debian:
    """A fresh Debian in a folder. Nothing of it runs but what it is told to."""

    def __init__(self, folder, archive=None):
        self.folder = Path(folder)
        words = ["mmdebstrap", "--quiet", "--variant=minbase", "--include=systemd", SUITE, str(folder)]
        if archive:
            self.folder.mkdir()
            words = ["tar", "-C", str(folder), "-xf", archive]
        subprocess.run(words, check=True)
        holds("no service manager runs in it", not self.at("/run/systemd/system").exists())

    def at(self, place):
        """Where a file of it lies here."""
        return self.folder / place.lstrip("/")

    def run(self, *words):
        """Runs a command in it: its status and what it prints."""
        private = ["unshare", "--mount", "--propagation", "private", "sh", "-c", WITHIN, str(self.folder)]
        words = [*private, *map(str, words)]
        done = subprocess.run(words, stdin=subprocess.DEVNULL, capture_output=True, text=True, timeout=300, env=CLEAN)
        return done.returncode, done.stdout.strip(), done.stderr.strip()

    def does(self, *words):
        """What a command prints that has to end well."""
        status, out, err = self.run(*words)
        holds(f"{' '.join(map(str, words))}: status {status}, {err}", status == 0)
        return out

    def lines_of(self, unit):
        """What a unit sets of its service, line by line."""
        part = self.at(f"{UNITS}/{unit}").read_text().partition("[Service]\n")[2].partition("\n[")[0]
        return [it for it in part.splitlines() if it and it[0] != "#"]

    def install(self, deb):
        """Installs a package by dpkg."""
        self.at("/root/package.deb").write_bytes(Path(deb).read_bytes())
        self.does("dpkg", "--install", "/root/package.deb")


class Gateway:
    """The command line of a spool's unit, run as systemd would: as the unit's user, with the settings of the spool."""

    def __init__(self, debian, name, unit):
        self.debian, self.name, self.unit = debian, name, unit
        self.process, self.port = None, free_port()
        self.settings = debian.at(f"{SETTINGS}/{name}.env")

    def listens_at(self, address):
        self.settings.write_text(f"LISTEN={address}\n")

    def run(self):
        """Runs the command line: `${NAME}` is a setting, `$NAME` its words, and `%i` the spool's name. The settings are
        the unit's, and then those of the spool's file."""
        lines = dict(it.split("=", 1) for it in self.debian.lines_of(self.unit))
        file = lines["EnvironmentFile"].replace("%i", self.name)
        given = [it for it in self.debian.at(file).read_text().splitlines() if it[0] != "#"]
        settings = dict(it.split("=", 1) for it in [lines["Environment"], *given])
        self.words = ["chroot", f"--userspec={lines['User']}:{lines['User']}", str(self.debian.folder)]
        for word in lines["ExecStart"].replace("%i", self.name).split():
            words = re.fullmatch(r"\$(\w+)", word)
            one = re.sub(r"\$\{(\w+)\}", lambda it: settings[it[1]], word)
            self.words += settings[words[1]].split() if words else [one]
        piped = {"stdin": subprocess.DEVNULL, "stdout": subprocess.PIPE, "stderr": subprocess.PIPE, "text": True}
        mask = int(lines["UMask"], 8)
        self.process = subprocess.Popen(self.words, env={**CLEAN, **settings}, umask=mask, **piped)

    def start(self):
        """Runs it, and waits until it says that it listens at the address of its settings."""
        self.run()
        said = self.process.stdout.readline() if select.select([self.process.stdout], [], [], PATIENCE)[0] else ""
        if not said.endswith(f"; listening 127.0.0.1:{self.port}\n"):
            self.process.kill()
            status, err = self.process.wait(), self.process.stderr.read()
            raise Wrong(f"{' '.join(self.words)}: says {said!r} and {err!r}, status {status}")

    def ended(self):
        """Runs it where it can't serve: the status that it ends with, and what it says of it."""
        self.run()
        status = self.process.wait(PATIENCE)
        said = self.process.stderr.read()
        self.stop()
        return status, said

    def stop(self):
        """Ends it hard, by its own process id, if it was run: the status that it had by itself before, if any."""
        process, self.process = self.process, None
        if process is None:
            return None
        status = process.poll()
        process.kill()
        process.wait(PATIENCE)
        process.stdout.close()
        process.stderr.close()
        return status

    def kill(self):
        """Ends it hard. One that ended before, by itself, is a failure."""
        same(f"{self.unit}: the status that it ended with by itself", self.stop(), None)

    def start_again(self):
        """Ends it hard, and starts it by the same command."""
        self.kill()
        self.start()


def free_port():
    """A port of 127.0.0.1 at which nothing listens."""
    with socket.socket() as taken:
        taken.bind(("127.0.0.1", 0))
        return taken.getsockname()[1]
