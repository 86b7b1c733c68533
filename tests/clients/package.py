"""The Debian package in a fresh Debian where no service manager runs: installed, served, upgraded, removed and purged.

usage: package.py [--program PATH] [--indexes DIR] [--seed N] [--root TAR]

It needs root, dpkg-deb, git, curl, and mmdebstrap, which makes the Debian of its packages (or TAR, an archive of a
fresh one that has the package systemd). What is run there is run by chroot: nothing is booted, and of systemd's
programs only those that start nothing are run, which make the user and the folder and read the units. Each gateway is
the command line of its unit, run directly as the unit's user with its settings, at a port of 127.0.0.1 that is free.
Uploads are sent by curl in pieces, and their texts compared with Python's codecs: they stay over gateways that are
ended hard, an upgrade, a removal, a purge, and an installation after it. The logs are as the settings have them, and
the package's version is that of its commit. What the units forbid is compared with docs/PACKAGE.md; that systemd
forbids it, and starts a gateway again, only a running systemd would show.
"""

import gzip
import hashlib
import os
import re
import runpy
import select
import subprocess
import tempfile
from pathlib import Path

from clients import made_by_curl, patch_by_curl
from harness import ROOT, TUS, curl, fields, header, holds, indexes_in, parser_of, random_sample, rng_of, same
from roots import PATIENCE, SETTINGS, UNITS, Debian, Gateway

# The version that the older package is given; the newer one has its own.
OLD = "1.0.0"
PROGRAM = "/usr/bin/gateway"
READER = "/usr/share/wovelatsa/tools/read-spool"
HOME = "/var/lib/wovelatsa"
DOCUMENTS = "/usr/share/doc/wovelatsa"
ENABLED = "/etc/systemd/system/multi-user.target.wants"
# The unit of each spool.
NAMED = {"spool": "wovelatsa.service", "a": "wovelatsa@.service"}
# What the package has beside the program and files of the repository.
PAGE, CHANGES, COPYRIGHT = "/usr/share/man/man1/gateway.1.gz", f"{DOCUMENTS}/changelog.gz", f"{DOCUMENTS}/copyright"
MADE = (PAGE, CHANGES, COPYRIGHT, f"{UNITS}/wovelatsa.service")
# What dpkg reads of it, and the scripts that dpkg runs.
READ, SCRIPTS = ("conffiles", "control", "md5sums"), ("postinst", "postrm", "prerm")
# A unit's lines that say how its gateway is run; the others say what it may do.
RUNNING = "Type Environment EnvironmentFile ExecStart SyslogIdentifier Restart RestartSec".split()
RUNNING += ["RestartPreventExitStatus"]
# What tools/package reads of the repository.
READ_BY_IT = "CONTRIBUTING.md README.md crates.txt docs indexes packaging tests tools".split()
AUTHOR = ["-c", "user.name=Nobody", "-c", "user.email=nobody@example.org"]
# Installs, and says then whose processes there are: where no other is, of which nothing is asked.
INSTALLING = "dpkg --install /root/package.deb >&2 && stat --format %U /proc/[0-9]*"
ALONE = "unshare --fork --pid --propagation unchanged --mount-proc sh -c".split()
# A line of the log, from the method to the refusal.
LINE = r"\d{4}-\d\d-\d\dT\d\d:\d\d:\d\d\.\d{3}Z \d+ 127\.0\.0\.1:\d+ (.*) in=\d+ out=\d+ ms=\d+"
PAGES = 64


class Service(Gateway):
    """A gateway with other settings, whose standard error is read as it runs."""

    def has(self, *options):
        """Sets its address, and these lines."""
        self.settings.write_text("".join(f"{it}\n" for it in (f"LISTEN=127.0.0.1:{self.port}", *options)))

    def logs(self, count):
        """The next lines that it writes to standard error, as many as these, without those of a minute."""
        said, lines = "", []
        while len(lines) < count:
            holds(f"{' '.join(self.words)}: {count} lines, not {said!r}", self.writes(PATIENCE))
            said += os.read(self.process.stderr.fileno(), 1 << 16).decode()
            lines = [it for it in said.splitlines(keepends=True) if it[-1] == "\n" and " minute " not in it]
        return lines

    def writes(self, patience):
        """Whether something comes on standard error, and no end."""
        return bool(select.select([self.process.stderr], [], [], patience)[0]) and self.process.poll() is None


def git(tree, *words):
    """What git prints."""
    return subprocess.run(["git", "-C", tree, *words], check=True, capture_output=True, text=True).stdout.strip()


def package(tree, program, folder, *words):
    """Makes a package of a tree, in a new folder."""
    Path(folder).mkdir()
    words = [tree / "tools/package", "--program", program, "--out", folder, *words]
    subprocess.run(words, check=True, stdout=subprocess.DEVNULL)
    return next(Path(folder).glob("*.deb"))


def packages(program, folder):
    """Makes an older version, and the one that the package has by itself twice: the same bytes."""
    old = package(ROOT, program, f"{folder}/old", "--version", OLD)
    new, again = (package(ROOT, program, f"{folder}/{it}") for it in ("new", "again"))
    same("the package made again", again.read_bytes() == new.read_bytes(), True)
    same("the version that is given", version_in(old), OLD)
    changed = ".dirty" if git(ROOT, "status", "--porcelain") else ""
    same("the version by itself", version_in(new), version_of(ROOT, program) + changed)
    return old, new


def version_in(deb):
    return told_of(deb, "--field", "Version").strip()


def version_of(tree, program):
    """The version of a tree without changes: what the program says, how many commits there are, and the last one."""
    said = subprocess.run([program, "--version"], check=True, capture_output=True, text=True).stdout
    plain = re.match(r"gateway (\d+\.\d+\.\d+), ", said)[1]
    return f"{plain}+{git(tree, 'rev-list', '--count', 'HEAD')}.g{git(tree, 'rev-parse', 'HEAD')[:8]}"


def versions(program, folder):
    """Of nine commits, with a change that isn't committed, and of ten, each package is newer than the one before."""
    tree = Path(folder, "tree")
    tree.mkdir()
    subprocess.run(["cp", "-a", *(ROOT / it for it in READ_BY_IT), tree], check=True)
    git(tree, "init", "--quiet")
    git(tree, "add", "--all")
    for _ in range(9):
        git(tree, *AUTHOR, "commit", "--quiet", "--allow-empty", "--message", "a commit")
    nine = version_in(package(tree, program, f"{folder}/nine"))
    same("the version of nine commits", nine, version_of(tree, program))
    (tree / "docs/NEW.md").write_text("A file that isn't committed.\n")
    changed = version_in(package(tree, program, f"{folder}/changed"))
    same("the version with a change", changed, f"{nine}.dirty")
    git(tree, "add", "--all")
    git(tree, *AUTHOR, "commit", "--quiet", "--message", "a commit")
    ten = version_in(package(tree, program, f"{folder}/ten"))
    same("the version of ten commits", ten, version_of(tree, program))
    for older, newer in ((OLD, nine), (nine, changed), (changed, ten)):
        done = subprocess.run(["dpkg", "--compare-versions", older, "lt", newer])
        same(f"the status of dpkg, whether {older} is older than {newer}", done.returncode, 0)


def told_of(deb, what, *words):
    """What dpkg-deb prints of a package."""
    return subprocess.run(["dpkg-deb", what, deb, *words], check=True, capture_output=True, text=True).stdout


def taken():
    """What the package takes from the repository: where each file goes."""
    for pattern, place in runpy.run_path(str(ROOT / "tools/package"))["LAYOUT"].items():
        for file in ROOT.glob(pattern):
            yield f"/{place}/{file.name}" if "*" in pattern else f"/{place}", file


def mode_of(place):
    """The mode that a place of the package has to have."""
    return "drwxr-xr-x" if place.endswith("/") else "-rwxr-xr-x" if place in (PROGRAM, READER) else "-rw-r--r--"


def contents(deb, program, folder):
    """It has the files that it has to have and no others, all of root, and each with its bytes: how many files."""
    listed = [line.split(maxsplit=5) for line in told_of(deb, "--contents").splitlines()]
    listed = {place[1:]: (mode, owner) for mode, owner, _size, _day, _time, place in listed}
    others = {it: told for it, told in listed.items() if told != (mode_of(it), "root/root")}
    same("files with another mode or owner", others, {})
    files = {**dict(taken()), PROGRAM: Path(program)}
    same("the files", sorted(it for it in listed if it[-1] != "/"), sorted([*files, *MADE]))
    told_of(deb, "--extract", folder)
    for place, file in files.items():
        holds(f"{place} is {file}", Path(f"{folder}{place}").read_bytes() == file.read_bytes())
    page, change = (gzip.decompress(Path(f"{folder}{it}").read_bytes()).decode() for it in (PAGE, CHANGES))
    holds("the manual page", page.startswith("'\\\" t\n") and ".SH NAME\ngateway \\- " in page)
    holds(f"the changelog: {change}", change.startswith(f"wovelatsa ({version_in(deb)}) "))
    holds(f"the commit is in the changelog: {change}", git(ROOT, "rev-parse", "HEAD") in change)
    licensed(Path(f"{folder}{COPYRIGHT}").read_text())
    return len(files) + len(MADE)


def licensed(text):
    """The copyright has the licence of each of the kit's crates that crates.txt names, and of no other."""
    lines = re.findall(r"^(\w+)[^:#]*:(.*)", (ROOT / "crates.txt").read_text(), re.MULTILINE)
    crates = {it for _name, below in lines for it in below.split()} - {name for name, _below in lines}
    same("crates with a licence", {it.name for it in (ROOT / "packaging/licences").iterdir()}, crates)
    same("crates that the copyright names", set(re.findall(r"contains the crate (\w+), under", text)), crates)
    for it in (ROOT / "packaging/licences").glob("*/*"):
        holds(f"the copyright has {it}", it.read_text() in text)


def control(deb, folder):
    """What dpkg reads: the scripts, which are run, and the settings, which stay at an upgrade."""
    told_of(deb, "--control", folder)
    modes = {it.name: oct(it.stat().st_mode & 0o777) for it in Path(folder).iterdir()}
    same("what dpkg reads", modes, {**dict.fromkeys(SCRIPTS, "0o755"), **dict.fromkeys(READ, "0o644")})
    same("settings", Path(folder, "conffiles").read_text(), f"{SETTINGS}/spool.env\n")


def has_version(debian, deb):
    """The version that is installed is that of a package."""
    same("the version", debian.does("dpkg-query", "-W", "-f", "${Version}", "wovelatsa"), version_in(deb))


def installed(debian, deb):
    """Installs it: the user and the folder are there, each file is as it was packed, and nothing runs by itself."""
    debian.at("/root/package.deb").write_bytes(deb.read_bytes())
    same("users of processes after it, the shell's only", debian.does(*ALONE, INSTALLING), "root")
    has_version(debian, deb)
    same("what isn't as it was packed", debian.does("dpkg", "--verify", "wovelatsa"), "")
    user = debian.does("getent", "passwd", "wovelatsa").split(":")
    same("the user's folder and shell", user[5:], [HOME, "/usr/sbin/nologin"])
    same("the folder", debian.does("stat", "-c", "%U:%G %a", HOME), "wovelatsa:wovelatsa 750")
    same("units that are enabled", list(debian.at(ENABLED).glob("wovelatsa*")), [])


def sound(debian):
    """The units are sound to systemd, which says something of a line that it doesn't know."""
    units = [f"{UNITS}/{it}" for it in NAMED.values()]
    same("what systemd-analyze says", debian.run("systemd-analyze", "verify", "--man=no", *units), (0, "", ""))
    text = debian.at(units[0]).read_text().replace("ProtectSystem", "ProtectSistem")
    debian.at("/root/wrong.service").write_text(text)
    said = debian.run("systemd-analyze", "verify", "--man=no", "/root/wrong.service")[2]
    holds(f"systemd-analyze says {said!r} of a wrong line", "ProtectSistem" in said)


def forbidden(debian):
    """What each unit lets its gateway do is what docs/PACKAGE.md says, line by line: how many lines."""
    section = (ROOT / "docs/PACKAGE.md").read_text().partition("\n## The package\n")[2].partition("\n## ")[0]
    cells = [line.split("|")[1] for line in section.splitlines() if line.startswith("| `")]
    told = sorted(re.findall(r"`([^`]+)`", " ".join(cells)))
    for unit in NAMED.values():
        lines = [it for it in debian.lines_of(unit) if it.partition("=")[0] not in RUNNING]
        same(f"lines of {unit} that docs/PACKAGE.md lacks", sorted(set(lines) - set(told)), [])
        same(f"lines of docs/PACKAGE.md that {unit} lacks", sorted(set(told) - set(lines)), [])
        same(f"how often {unit} and docs/PACKAGE.md have each line", sorted(lines), told)
    return len(told)


def settings_as_packed(program):
    """The settings that the package brings: the log, and every other option of `up`, which its comment has."""
    text = (ROOT / "packaging/systemd/spool.env").read_text()
    lines = [it for it in text.splitlines() if it[0] != "#"]
    same("the settings", lines, ["LISTEN=127.0.0.1:8080", "OPTIONS=--log"])
    told = subprocess.run([program, "up", "--help"], check=True, capture_output=True, text=True).stdout
    known = set(re.findall(r"--[a-z]+", told)) - {"--listen", "--help"}
    same("the options that its comment has", set(re.findall(r"--[a-z]+", text.replace(lines[1], ""))), known)


def without_spool(debian, gateway):
    """With an address or an option that is none it ends with a status after which it isn't started again, and without
    a spool that it can read with one after which it is."""
    lines = debian.lines_of(gateway.unit)
    holds("when it is started again", {"Restart=on-failure", "RestartPreventExitStatus=1 3"} <= set(lines))
    gateway.listens_at("nowhere")
    same("the status with a wrong address", gateway.ended()[0], 1)
    gateway.has("OPTIONS=--logs")
    same("the status with a wrong option", gateway.ended()[0], 1)
    gateway.has()
    refused(gateway, "39 CannotOpen", "cannot open the spool {}")
    spool = debian.at(f"{HOME}/{gateway.name}")
    spool.touch(mode=0o600)
    refused(gateway, "39 CannotOpen", "cannot open the spool {}")
    spool.unlink()


def refused(gateway, refusal, reason):
    """Its command line ends with status 2, and says why and of which spool."""
    status, said = gateway.ended()
    same(f"the status at {refusal}, with {said!r}", status, 2)
    told = f"refused: {refusal}\n{reason.format(f'{HOME}/{gateway.name}')}"
    holds(f"what it says: {said!r}, not {told!r}", said.startswith(told))


def served(debian, gateway, rng):
    """Makes a spool as the gateway's user, serves it, and sends an upload by curl in two pieces. The gateway is ended
    hard after each, and has everything once it is started again: the upload's path and text."""
    words = ["format", f"{HOME}/{gateway.name}", "--blocks", PAGES, "--indexes", "/srv/idx"]
    debian.does("runuser", "-u", "wovelatsa", "--", "gateway", *words)
    gateway.start()
    sample = random_sample(rng, "shift_jis")
    half = len(sample.data) // 2
    url = made_by_curl(gateway, sample, {"Upload-Length": len(sample.data)})
    patch_by_curl(url, 0, sample.data[:half])
    gateway.start_again()
    same("the offset", header(curl("-I", *fields(TUS), url).decode(), "Upload-Offset"), str(half))
    patch_by_curl(url, half, sample.data[half:])
    path = url.removeprefix(f"http://127.0.0.1:{gateway.port}")
    gateway.start_again()
    there(gateway, path, sample.text)
    return path, sample.text


def logged(gateway, path, text):
    """By the package's settings each reply is a line on standard error, and by those of an older package, which have no
    options. None is if these are none. By both options the line at the start isn't there."""
    packed = (ROOT / "packaging/systemd/spool.env").read_text().replace("127.0.0.1:8080", f"127.0.0.1:{gateway.port}")
    for settings in packed, f"LISTEN=127.0.0.1:{gateway.port}\n":
        gateway.kill()
        gateway.settings.write_text(settings)
        gateway.start()
        there(gateway, path, text)
        curl(f"http://127.0.0.1:{gateway.port}/files/99")
        lines = [re.fullmatch(LINE, it.strip()) or it for it in gateway.logs(2)]
        wanted = [f"GET {path} status=200", "GET /files/99 status=404 refusal=8:NoSuch"]
        same("the log", [it[1] for it in lines], wanted)
    gateway.kill()
    gateway.has("OPTIONS=--log --quiet")
    gateway.run()
    curl("-f", "--retry", "9", "--retry-connrefused", f"http://127.0.0.1:{gateway.port}{path}")
    holds("the log without the line at the start", f"GET {path} status=200" in gateway.logs(1)[0])
    same("what comes on standard output", select.select([gateway.process.stdout], [], [], 0)[0], [])
    gateway.kill()
    gateway.has("OPTIONS=")
    gateway.start()
    there(gateway, path, text)
    same("whether something comes on standard error", gateway.writes(0.5), False)


def in_use(gateway):
    """While another process has its spool, its command line is refused, and that process goes on."""
    other = Service(gateway.debian, gateway.name, gateway.unit)
    refused(other, "38 InUse", "{0} is in use: stop the gateway that serves it (`fuser {0}` prints its process)")
    same("the status of the one that has it", gateway.process.poll(), None)


def there(gateway, path, text):
    """An upload's text is what it has to be."""
    same(f"the text of {path}", curl("-f", f"http://127.0.0.1:{gateway.port}{path}"), text)


def upgraded(debian, deb, sent):
    """Gateways serve while it is upgraded; with the new program and their old settings they have everything."""
    settings = {it: it.settings.read_text() for it in sent}
    program = debian.at(PROGRAM).stat().st_ino
    debian.install(deb)
    has_version(debian, deb)
    holds("the program is a new file", debian.at(PROGRAM).stat().st_ino != program)
    for gateway, upload in sent.items():
        same("the settings", gateway.settings.read_text(), settings[gateway])
        there(gateway, *upload)
        gateway.start_again()
        there(gateway, *upload)


def spools_of(debian):
    """The spools, each with its sum, its mode and its owner."""
    files = [debian.at(f"{HOME}/{it}") for it in NAMED]
    sums = [hashlib.sha256(it.read_bytes()).hexdigest() for it in files]
    return sums, debian.does("stat", "-c", "%n %U:%G %a", HOME, *(f"{HOME}/{it}" for it in NAMED))


def gone(debian, how, spools):
    """Removed or purged: no program and no unit; the spools are as they were, and the settings there until a purge."""
    debian.does("dpkg", how, "wovelatsa")
    for it in (PROGRAM, DOCUMENTS, *(f"{UNITS}/{unit}" for unit in NAMED.values())):
        same(f"whether {it} is there", debian.at(it).exists(), False)
    purged = how == "--purge"
    same("whether the settings are there", debian.at(f"{SETTINGS}/spool.env").exists(), not purged)
    same("the settings of an instance, which are no file of the package", debian.at(f"{SETTINGS}/a.env").exists(), True)
    same("how many units are enabled", len(list(debian.at(ENABLED).glob("wovelatsa*"))), 0 if purged else 2)
    same(f"the spools after {how}", spools_of(debian), spools)


def removed_and_purged(debian, sent):
    """Removes and purges it. Each unit has the link that enabling it makes, of which a purge leaves none."""
    for gateway in sent:
        gateway.kill()
        link = debian.at(f"{ENABLED}/{gateway.unit.replace('@', '@' + gateway.name)}")
        link.parent.mkdir(parents=True, exist_ok=True)
        link.symlink_to(f"{UNITS}/{gateway.unit}")
    spools = spools_of(debian)
    gone(debian, "--remove", spools)
    gone(debian, "--purge", spools)


def installed_again(debian, deb, sent):
    """After a purge the package brings the settings that it is made with, finds the spools, and serves them."""
    installed(debian, deb)
    first = next(iter(sent))
    same("the settings", first.settings.read_text(), (ROOT / "packaging/systemd/spool.env").read_text())
    first.listens_at(f"127.0.0.1:{first.port}")
    for gateway, upload in sent.items():
        gateway.start()
        there(gateway, *upload)


def left_nothing(debian, deb):
    """Installed and purged, with no spool made in between, it leaves its user and no file."""
    debian.install(deb)
    debian.does("dpkg", "--purge", "wovelatsa")
    same("what is left", [*debian.folder.rglob("*wovelatsa*"), *debian.folder.glob("usr/bin/gateway")], [])


def try_package(debian, old, new, rng):
    """The package's life. Returns how many lines of a unit say what it may do."""
    left_nothing(debian, old)
    installed(debian, old)
    sound(debian)
    lines = forbidden(debian)
    gateways = [Service(debian, name, unit) for name, unit in NAMED.items()]
    try:
        for it in gateways:
            without_spool(debian, it)
        sent = {it: served(debian, it, rng) for it in gateways}
        for gateway, upload in sent.items():
            logged(gateway, *upload)
            in_use(gateway)
        upgraded(debian, new, sent)
        removed_and_purged(debian, sent)
        installed_again(debian, new, sent)
    finally:
        for it in gateways:
            it.stop()
    return lines


def main():
    words = parser_of(__doc__)
    words.add_argument("--root", help="an archive of a fresh Debian that has the package systemd")
    words = words.parse_args()
    os.umask(0o022)
    with tempfile.TemporaryDirectory() as folder:
        old, new = packages(words.program, folder)
        versions(words.program, folder)
        settings_as_packed(words.program)
        files = contents(new, words.program, f"{folder}/files")
        control(new, f"{folder}/control")
        debian = Debian(f"{folder}/root", words.root)
        debian.at("/srv/idx").mkdir()
        for file in indexes_in(folder, words.indexes).glob("index-*.txt"):
            (debian.at("/srv/idx") / file.name).write_bytes(file.read_bytes())
        lines = try_package(debian, old, new, rng_of(words.seed, "package"))
        version = version_in(new)
    print(f"{files} files, all of root; {lines} lines of what a unit may do, as documented; two spools served by the")
    print(f"command lines of their units, logged, ended hard, upgraded from {OLD} to {version}, removed, purged,")
    print("installed again: every text right")


if __name__ == "__main__":
    main()
