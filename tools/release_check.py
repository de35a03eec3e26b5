"""What `tools/release check` does: it tests the files of a release as a stranger would, who has them and nothing of the tree.

Each test has a room of its own and an environment without a word. The tree tells only what is expected: the version, the crates, and
which files there are."""
import base64
import contextlib
import csv
import hashlib
import io
import os
import pathlib
import re
import shutil
import subprocess
import tarfile
import tempfile
import zipfile

TOP = pathlib.Path(__file__).resolve().parent.parent
VERSION = (TOP / "VERSION").read_text().strip()
MAJOR = VERSION.split(".")[0]
PROGRAMS = ("btidx", "ledger", "shared_ledger")
TARBALL = f"nardsill-{VERSION}-x86_64-linux.tar.gz"
PACKAGE = f"nardsill_{VERSION}_amd64.deb"
WHEEL = f"nardsill-{VERSION}-py3-none-linux_x86_64.whl"
SOURCE = f"nardsill-{VERSION}.tar.gz"
NATIVE = "lib/x86_64-linux-gnu"
PYTHONS = ("3.10", "3.11", "3.12", "3.13")
DOCUMENTS = ("README.md", "CHANGELOG.md", "SECURITY.md", "docs/EMBEDDING.md", "docs/SCRIPTS.md", "docs/FORMAT.md", "docs/REPLICATED.md")
PATH = "/usr/local/sbin:/usr/local/bin:/usr/sbin:/usr/bin:/sbin:/bin"

LEDGER = "insert 61 (1,1)\ninsert 62 (0,2)\ncommit\nlist * *\ndelete (1,1)\ninsert 61 (0,0)\nnothing\n"
ANSWERS = "added 1\nadded 2\ncommitted 2\nentry 61 (1,1)\nentry 62 (0,2)\ndone 2\ndeleted 1\nrefused 7 BadRow\nnot a line\n"
PLAY = "put 0 61 (0,1)\nput 0 62 (0,2)\nforce\nput 0 63 (0,3)\ncrash drop\nlist 0 * *\n"
PLAYED = "added 1\nadded 2\nforced 2\nadded 3\nopened\nentry 61 (0,1)\nentry 62 (0,2)\ndone 2\n"
JOBS = "insert 61 (0,1)\ninsert 62 (0,2)\ncommit\nscan * * 10\n"
SQL = """.load {table}
create virtual table mail using nardsill('mail.idx');
insert into mail values ('alice@example.org', 7, 1), ('bob@example.org', 8, 1);
select key, block from mail where key >= 'alice' and key < 'bob' order by key;
delete from mail where block = 7;
select count(*) from mail;
"""
VERSIONS = r"""#include <nardsill.h>
#include <stdio.h>
int main(void) { return !printf("%s %s\n", NARDSILL_VERSION, nardsill_version()); }
"""
USE = f"""
import nardsill, os, sys
assert nardsill.__file__.startswith(sys.prefix), nardsill.__file__
assert nardsill.version() == nardsill.__version__ == "{VERSION}", (nardsill.version(), nardsill.__version__)
with nardsill.open("mail.idx") as index:
    assert index.add(b"alice", (7, 1)) and index.add(b"bob", (8, 1)) and not index.add(b"bob", (8, 1))
    index.commit()
    assert [(key, row.block) for key, row in index.scan()] == [(b"alice", 7), (b"bob", 8)]
with nardsill.open("mail.idx") as index:
    assert [key for key, _ in index.scan(prefix=b"al")] == [b"alice"]
    try:
        index.insert(b"alice", (7, 1))
        raise SystemExit("an entry is added twice")
    except nardsill.Exists:
        pass
assert nardsill.check("mail.idx").entries == 2
print("used")
"""
# Bash that prints what the completion of a command line offers.
OFFER = """source "$1"; shift
COMP_WORDS=("$@") COMP_CWORD=$(($# - 1)) COMP_LINE="$*" COMP_POINT=${#COMP_LINE}
run=$(complete -p "$1"); run=${run#*-F }; ${run%% *} "$1" "${!#}" "${@: -2:1}"
printf '%s\\n' "${COMPREPLY[@]}"
"""


class Wrong(Exception):
    """What a stranger finds to be wrong."""


class Lacking(Exception):
    """What isn't installed on this machine."""


def want(holds, message):
    if not holds:
        raise Wrong(message)


def same(found, wanted, what):
    """What is found is what is wanted. Of sets it tells what lacks and what is beside."""
    if isinstance(wanted, set):
        lacking, beside = (" ".join(map(str, sorted(each))) or "none" for each in (wanted - found, found - wanted))
        want(found == wanted, f"{what}: lacking {lacking}; beside them {beside}")
    want(found == wanted, f"{what}: {repr(found)[:400]}, and not {repr(wanted)[:400]}")


def run(words, cwd, text="", status=0, **environment):
    """Runs a command as `env -i` does, and answers what it prints; standard error too, if another status is wanted."""
    environment = {"PATH": PATH, "HOME": str(cwd), "LC_ALL": "C.UTF-8", **environment}
    how = {"capture_output": True, "text": True, "errors": "replace", "timeout": 300}
    done = subprocess.run(words, cwd=cwd, env=environment, input=text, **how)
    name = " ".join(map(str, words)).split("\n")[0][:120]
    want(done.returncode == status, f"{name}: status {done.returncode}, and not {status}: {(done.stdout + done.stderr)[-800:]}")
    return done.stdout if not status else done.stdout + done.stderr


def tool(name):
    """A program of this machine."""
    if not shutil.which(name, path=PATH):
        raise Lacking(f"{name} isn't installed")
    return name


def digest(path):
    return hashlib.sha256(path.read_bytes()).hexdigest()


# The release as a whole


def files_of(lib):
    """Each file of an installation, by its path below the prefix."""
    found = {f"bin/{name}" for name in PROGRAMS} | {f"share/bash-completion/completions/{name}" for name in PROGRAMS}
    found |= {f"{lib}/libnardsill.so", f"{lib}/libnardsill.so.{MAJOR}", f"{lib}/libnardsill.so.{VERSION}"}
    found |= {"include/nardsill.h", f"{lib}/pkgconfig/nardsill.pc", f"{lib}/nardsill/nardsill_table.so", "share/man/man3/nardsill.3"}
    return found | {f"share/man/man1/{name}.1" for name in PROGRAMS} | {f"share/doc/nardsill/{name}" for name in (*DOCUMENTS, "PROOF")}


class Release:
    """The files of a release, with what is unpacked of them in a room."""

    def __init__(self, folder, room):
        self.folder, self.room, self.count = folder, room, 0

    def new_room(self):
        """An empty folder."""
        self.count += 1
        path = self.room / str(self.count)
        path.mkdir()
        return path

    def unpacked(self):
        """The tarball, unpacked in an empty folder."""
        room = self.new_room()
        run(["tar", "xzf", self.folder / TARBALL], room)
        (top,) = room.iterdir()
        return top

    def installed(self):
        """The package for Debian, installed below an empty folder, and where that is."""
        tool("dpkg")
        root = self.new_room()
        (root / "var/lib/dpkg/info").mkdir(parents=True)
        (root / "var/lib/dpkg/updates").mkdir()
        for name in ("status", "available"):
            (root / "var/lib/dpkg" / name).touch()
        run([*self.dpkg(root), "-i", self.folder / PACKAGE], root)
        return root

    def dpkg(self, root):
        """Words that begin a command of dpkg below a folder: what the package stands on isn't there, and files are given to root."""
        as_root = [tool("fakeroot")] if os.geteuid() else []
        return [*as_root, "dpkg", f"--root={root}", "--force-depends", "--force-not-root", "--force-bad-path", "--log=/dev/null"]

    # Each test is a method whose name begins with test_; its first line says what holds.

    def test_sums(self):
        """SHA256SUMS has the sum of each other file, and the files are those of this version"""
        names = {path.name for path in self.folder.iterdir()}
        same(names, {TARBALL, PACKAGE, WHEEL, SOURCE, "PROOF", "SHA256SUMS"}, "the files")
        lines = [line.split("  ") for line in (self.folder / "SHA256SUMS").read_text().splitlines()]
        same({name for _, name in lines}, names - {"SHA256SUMS"}, "the names in SHA256SUMS")
        for wanted, name in lines:
            same(digest(self.folder / name), wanted, f"the sum of {name}")

    def test_proof(self):
        """PROOF has a verdict of each crate, and the sums of what is in the tarball"""
        text = (self.folder / "PROOF").read_text()
        want(text.startswith(f"Nardsill {VERSION}: "), f"PROOF is of another version: {text.splitlines()[0]}")
        want(re.search(r"^commit [0-9a-f]{40}\b", text, re.M), "PROOF names no commit")
        want(re.search(r"^kit \S+ logic [0-9a-f]+$", text, re.M), "PROOF names no kit")
        logic = re.search(r"^kit \S+ logic (\S+)$", text, re.M)[1]
        for line in (TOP / "crates.txt").read_text().splitlines():
            if name := (line.split("#")[0].split(":")[0].split() or [None])[0]:
                verdict = rf"^{name}: (logic=proved .* sum={logic} |kept, and not proved again: )"
                want(re.search(verdict, text, re.M), f"PROOF has no verdict of {name} by this kit")
        want("NOT PROVED" not in text, "PROOF has what isn't proved")
        top = self.unpacked()
        same((top / "share/doc/nardsill/PROOF").read_text(), text, "the tarball's PROOF")
        sums = dict(line.split("  ")[::-1] for line in re.findall(r"^[0-9a-f]{64}  \S+$", text, re.M))
        paths = [path for part in ("bin", "lib", "include") for path in (top / part).rglob("*") if path.is_file() and not path.is_symlink()]
        files = {path.name: path for path in paths if path.name != "nardsill.pc"}
        same(set(files), set(sums), "the built files")
        for name, path in files.items():
            same(digest(path), sums[name], f"the sum of {name}")

    def test_one_library(self):
        """The tarball, the package, the wheel and the source distribution have the same library, and the same programs"""
        top = self.unpacked()
        library = (top / f"lib/libnardsill.so.{VERSION}").read_bytes()
        with zipfile.ZipFile(self.folder / WHEEL) as wheel:
            want(wheel.read("nardsill/libnardsill.so") == library, "the wheel's library is another")
        with tarfile.open(self.folder / SOURCE) as source:
            found = source.extractfile(f"nardsill-{VERSION}/nardsill/libnardsill.so").read()
            want(found == library, "the source distribution's library is another")
        tool("dpkg-deb")
        room = self.new_room()
        run(["dpkg-deb", "-x", self.folder / PACKAGE, room], room)
        want((room / "usr" / NATIVE / f"libnardsill.so.{VERSION}").read_bytes() == library, "the package's library is another")
        for name in PROGRAMS:
            want((room / "usr/bin" / name).read_bytes() == (top / "bin" / name).read_bytes(), f"the package's {name} is another")

    # The tarball

    def test_tarball(self):
        """The tarball has each file, no other, in order, of one time and of root"""
        with tarfile.open(self.folder / TARBALL) as archive:
            entries = archive.getmembers()
        top = TARBALL.removesuffix(".tar.gz")
        names = [entry.name for entry in entries]
        same(names, sorted(names), "the order")
        found = {entry.name.removeprefix(f"{top}/") for entry in entries if not entry.isdir()}
        same(found, files_of("lib") | {"lib/libnardsill.a"}, "the files")
        same({(entry.uid, entry.gid, entry.uname, entry.gname) for entry in entries}, {(0, 0, "root", "root")}, "the owners")
        same(len({entry.mtime for entry in entries}), 1, "how many times there are")
        same({entry.name for entry in entries if entry.mode & 0o022 and not entry.issym()}, set(), "what others may write")

    def test_programs(self):
        """The programs of the tarball run"""
        top = self.unpacked()
        self.use_programs(top / "bin", self.new_room())

    def use_programs(self, folder, room):
        for name in PROGRAMS:
            same(run([folder / name, "--version"], room), f"{name} {VERSION}\n", f"{name} --version")
        btidx = folder / "btidx"
        same(run([btidx, "play"], room, PLAY), PLAYED, "btidx play")
        same(run([btidx, "create", "a.idx", "--items", "50", "--pages", "64", "--log", "65536"], room), "created\n", "btidx create")
        (room / "jobs").write_text(JOBS)
        ran = run([btidx, "run", "a.idx", "jobs", "--workers", "1"], room)
        want("job 3 worker 0 from 2 to 2 scanned 2 finished\n  61 (0,1)\n  62 (0,2)\n" in ran, f"btidx run: {ran}")
        checked = run([btidx, "check", "a.idx", "--parents"], room)
        same(checked, "ok levels=1 pages=2 entries=2 halfdead=0 deleted=0 unfinished=0\n", "btidx check")
        same(run([btidx, "copy", "a.idx", "b.idx", "--pages", "128"], room), "copied 2\n", "btidx copy")
        want("  62 (0,2)\n" in run([btidx, "dump", "b.idx"], room), "btidx dump has no entry")
        same(run([folder / "ledger", "c.idx"], room, LEDGER), ANSWERS, "ledger")
        same(run([folder / "ledger", "c.idx"], room, "list * *\n"), "entry 62 (0,2)\ndone 1\n", "ledger, opened again")
        same(run([folder / "shared_ledger", "d.idx", "1"], room, LEDGER), numbered(ANSWERS), "shared_ledger")
        shared = run([folder / "shared_ledger", "d.idx", "4"], room, "list * *\n" * 8)
        wanted = [f"{number} {line}" for number in range(1, 9) for line in ("entry 62 (0,2)", "done 1")]
        same(sorted(shared.splitlines()), sorted(wanted), "four threads")
        want("BadSuper" in run([btidx, "check", "jobs"], room, status=2), "btidx check takes any file")

    def test_c(self):
        """The program that EMBEDDING shows is compiled by pkg-config against the unpacked tarball, and runs; static too"""
        top = self.unpacked()
        example = example_in(top / "share/doc/nardsill/docs/EMBEDDING.md")
        self.use_in_c(example, top / "lib/pkgconfig", top, {})
        room = self.new_room()
        (room / "mail.c").write_text(example)
        run(["cc", "mail.c", f"-I{top}/include", top / "lib/libnardsill.a", "-lpthread", "-o", "mail"], room)
        same(run([room / "mail"], room), "alice@example.org 7\n", "the program with the static library")

    def use_in_c(self, example, pkgconfig, top, environment):
        """Compiles a program by what pkg-config tells, which must lie below the folder top alone, and runs it twice."""
        room = self.new_room()
        environment = {"PKG_CONFIG_LIBDIR": str(pkgconfig), **environment}
        words = run([tool("pkg-config"), "--cflags", "--libs", "nardsill"], room, **environment).split()
        same(run(["pkg-config", "--modversion", "nardsill"], room, **environment), f"{VERSION}\n", "the version of nardsill.pc")
        same([word[:2] for word in words if word[:2] in ("-I", "-L")], ["-I", "-L"], "the folders of nardsill.pc")
        for word in words:
            if word[:2] in ("-I", "-L"):
                want(pathlib.Path(word[2:]).resolve().is_relative_to(top.resolve()), f"nardsill.pc leads out of what was unpacked: {word}")
        (room / "mail.c").write_text(example)
        run([tool("cc"), "mail.c", *words, "-o", "mail"], room)
        (libraries,) = [word[2:] for word in words if word.startswith("-L")]
        for _ in range(2):
            same(run([room / "mail"], room, LD_LIBRARY_PATH=libraries), "alice@example.org 7\n", "the program in C")
        (room / "version.c").write_text(VERSIONS)
        run(["cc", "version.c", *words, "-o", "version"], room)
        same(run([room / "version"], room, LD_LIBRARY_PATH=libraries), f"{VERSION} {VERSION}\n", "what header and library tell")

    def test_sqlite(self):
        """sqlite3 loads the virtual table of the tarball"""
        self.use_table(self.unpacked() / "lib/nardsill/nardsill_table")

    def use_table(self, table):
        room = self.new_room()
        same(run([tool("sqlite3")], room, SQL.format(table=table)), "alice@example.org|7\n1\n", "the virtual table")

    # The package for Debian

    def test_package(self):
        """The package is installed, what is in it runs, and it is removed without a rest"""
        root = self.installed()
        top = root / "usr"
        found = {str(path.relative_to(top)) for path in top.rglob("*") if not path.is_dir() or path.is_symlink()}
        wanted = {f"{name}.gz" if name.startswith("share/man/") else name for name in files_of(NATIVE)}
        wanted |= {"share/doc/nardsill/copyright", "share/doc/nardsill/changelog.gz", "share/lintian/overrides/nardsill"}
        same(found, wanted, "the files")
        want("No licence has been chosen yet" in (top / "share/doc/nardsill/copyright").read_text(), "copyright tells of a licence")
        self.use_programs(top / "bin", self.new_room())
        sysroot = {"PKG_CONFIG_SYSROOT_DIR": str(root)}
        self.use_in_c(example_in(top / "share/doc/nardsill/docs/EMBEDDING.md"), top / NATIVE / "pkgconfig", root, sysroot)
        run([*self.dpkg(root), "-P", "nardsill"], root)
        same([str(path) for path in root.rglob("*") if path.is_file() and "var/lib/dpkg" not in str(path)], [], "what is left")

    def test_package_in_sqlite(self):
        """sqlite3 loads the virtual table of the package"""
        tool("sqlite3")
        self.use_table(self.installed() / "usr" / NATIVE / "nardsill/nardsill_table")

    def test_control(self):
        """The package tells its version and what it stands on, and has the sums of its files"""
        tool("dpkg-deb")
        lines = run(["dpkg-deb", "-f", self.folder / PACKAGE], self.room).splitlines()
        fields = dict(line.split(": ", 1) for line in lines if line[:1] != " ")
        wanted = {"Package": "nardsill", "Version": VERSION, "Architecture": "amd64"}
        same({name: fields.get(name) for name in wanted}, wanted, "its fields")
        want(re.match(r"libc6 \(>= 2\.\d+\)", fields["Depends"]), f"it stands on {fields['Depends']}")
        want("Homepage" not in fields, "it names a host")
        room = self.new_room()
        run(["dpkg-deb", "-R", self.folder / PACKAGE, room], room)
        for line in (room / "DEBIAN/md5sums").read_text().splitlines():
            wanted, name = line.split("  ")
            same(hashlib.md5((room / name).read_bytes()).hexdigest(), wanted, f"the sum of {name}")

    def test_lintian(self):
        """lintian finds no error in the package"""
        # Root is warned that it is root.
        run([tool("lintian"), "--fail-on", "error", self.folder / PACKAGE], self.new_room())

    # Python

    def use_in_python(self, python, *words):
        """Installs something in a new environment of this Python, without a network, and uses it."""
        room = self.new_room()
        run([python, "-m", "venv", room / "venv"], room)
        run([room / "venv/bin/python", "-m", "pip", "install", "--no-index", "--disable-pip-version-check", *words], room)
        same(run([room / "venv/bin/python", "-I", "-W", "error", "-c", USE], room), "used\n", "the package")

    def test_wheel(self):
        """The wheel's RECORD has the sum of each file"""
        with zipfile.ZipFile(self.folder / WHEEL) as wheel:
            about = f"nardsill-{VERSION}.dist-info"
            rows = {row[0]: row[1] for row in csv.reader(io.StringIO(wheel.read(f"{about}/RECORD").decode()))}
            same(set(rows), set(wheel.namelist()), "the files")
            want("nardsill/libnardsill.so" in rows, "it has no library")
            for name in set(rows) - {f"{about}/RECORD"}:
                sum_of = hashlib.sha256(wheel.read(name)).digest()
                same(rows[name], "sha256=" + base64.urlsafe_b64encode(sum_of).rstrip(b"=").decode(), f"the sum of {name}")
            want("\nRequires-Python: >=3.10\n" in wheel.read(f"{about}/METADATA").decode(), "it takes another Python")

    def test_wheel_in_python(self):
        """The wheel is installed by pip and works"""
        for version in PYTHONS:
            yield f"CPython {version}", lambda version=version: self.use_in_python(python_of(version), self.folder / WHEEL)

    def test_source_in_python(self):
        """The source distribution is installed by pip and works"""
        yield "in a room of pip's own", lambda: self.use_in_python(newest_python(), self.folder / SOURCE)
        yield "without one", lambda: self.use_in_python(newest_python(), "--no-build-isolation", self.folder / SOURCE)

    # Pages of the manual, and completion

    def test_pages(self):
        """man renders each page without a warning"""
        tool("man")
        for page in sorted((self.unpacked() / "share/man").rglob("*.*")):
            yield page.name, lambda page=page: self.render(page)

    def render(self, page):
        environment = {"PATH": PATH, "LC_ALL": "C.UTF-8", "MANWIDTH": "100", "MANPAGER": "cat"}
        done = subprocess.run(["man", "--warnings", "-l", page], env=environment, capture_output=True, text=True)
        same((done.returncode, done.stderr), (0, ""), "man")
        name = page.name.split(".")[0]
        want(re.search(rf"^NAME\n +{name} - ", re.sub(".\b", "", done.stdout), re.M), "the page doesn't begin with its name")

    def test_help(self):
        """The pages and the completion have the words of --help: each command, each option with what it does, and all behind them"""
        top = self.unpacked()
        for name in ("", *commands_of(top)):
            yield f"btidx {name}".strip(), lambda name=name: compare_btidx(top, name)
        for name in ("ledger", "shared_ledger"):
            yield name, lambda name=name: compare_usage(top, name)

    def test_completion(self):
        """bash completes commands, options and files by what is sourced"""
        top = self.unpacked()
        room = self.new_room()
        (room / "mail box.idx").touch()
        same(offered(top, "btidx", room, "che"), ["check"], "btidx che")
        same(offered(top, "btidx", room, "create", "--it"), ["--items"], "btidx create --it")
        same(offered(top, "btidx", room, "create", "ma"), ["mail box.idx"], "btidx create ma")
        same(offered(top, "btidx", room, "create", "mail.idx", "--items", ""), [], "btidx create mail.idx --items")
        same(offered(top, "ledger", room, "ma"), ["mail box.idx"], "ledger ma")
        same(offered(top, "shared_ledger", room, "--"), ["--version"], "shared_ledger --")


def numbered(answers):
    """The answers of `shared_ledger` with one thread: each begins with the number of its line."""
    lines, number = [], 1
    for line in answers.splitlines():
        lines.append(f"{number} {line}\n")
        number += not line.startswith("entry ")
    return "".join(lines)


def example_in(document):
    """The program in C that EMBEDDING shows."""
    blocks = re.findall(r"(?:^    .*\n|^\n(?=    ))+", document.read_text(), re.M)
    (found,) = ["".join(line[4:] or "\n" for line in block.splitlines(True)) for block in blocks if "int main" in block]
    return found


# Pythons


def python_of(version):
    """A CPython of this version on this machine."""
    found = shutil.which(f"python{version}", path=PATH)
    below = sorted(pathlib.Path(os.environ.get("PYENV_ROOT", "/root/.pyenv"), "versions").glob(f"{version}.*/bin/python{version}"))
    for path in [*below, *([found] if found else [])]:
        if not subprocess.run([path, "-c", "import ensurepip, venv"], capture_output=True).returncode:
            return path
    raise Lacking(f"CPython {version} with its venv isn't installed")


def newest_python():
    for version in reversed(PYTHONS):
        with contextlib.suppress(Lacking):
            return python_of(version)
    raise Lacking("no CPython of 3.10 to 3.13 is installed")


# Words of help


def options_of(told):
    """The options of a help of clap, each with what it does; what stands behind them; and the commands."""
    body, _, behind = told.split("\nOptions:\n")[1].partition("\n\n")
    options = {}
    for short, long, value, does in re.findall(r"^ +(-\w, )?(--[a-z-]+)( <N>)? +(\S.*)$", body, re.M):
        options[long] = (short[:2], bool(value), does)
    same(len(options), len(body.splitlines()), "how many lines tell an option")
    commands = re.search(r"\nCommands:\n((?: .*\n)+)", told)
    return options, behind.rstrip("\n"), dict(re.findall(r"^  ([a-z]+) +(\S.*)$", commands[1], re.M) if commands else [])


def commands_of(top):
    return sorted(options_of(run([top / "bin/btidx", "--help"], top))[2])


def plain(text):
    """What a line of a page's source shows."""
    for written, shown in ((r"\-", "-"), (r"\(aq", "'"), (r"\(ga", "`"), (r"\(ha", "^"), (r"\(ti", "~"), (r"\&", ""), (r"\e", "\\")):
        text = text.replace(written, shown)
    return text


def options_in(source):
    """The options that a part of a page has, as `options_of` answers them."""
    found = {}
    for macro, tag, does in re.findall(r"^\.TP\n\.(B|BI|BR) (.*)\n(.*)$", source, re.M):
        words = plain(tag).replace('"', "").split()
        if words[0].startswith("-"):
            short = words[0].rstrip(",") if len(words[0].rstrip(",")) == 2 else ""
            found[next(word for word in words if word.startswith("--"))] = (short, macro == "BI", plain(does))
    return found


def parts_of(page):
    """The parts of a page's source by their headings: those of COMMANDS by the command."""
    return dict(re.findall(r"^\.S[HS] (.*)\n((?:(?!\.S[HS] ).*\n)*)", page.read_text(), re.M))


def compare_btidx(top, name):
    """The help of a command of btidx, or of the program, has the words of the page and of the completion."""
    options, behind, commands = options_of(run([top / "bin/btidx", *([name] if name else []), "--help"], top))
    parts = parts_of(top / "share/man/man1/btidx.1")
    shorts = {short for short, _, _ in options.values() if short}
    room = pathlib.Path(top).parent
    words = [name] if name else []
    same(set(offered(top, "btidx", room, *words, "-")), {*options, *shorts}, "what the completion offers")
    told = parts[name or "OPTIONS"]
    if name:
        # Their option --help stands in OPTIONS for all.
        want(options.pop("--help", None), "a command has no --help")
    else:
        same(set(offered(top, "btidx", room, "")), {*commands, *options, *shorts}, "what the completion offers first")
        headings = set(parts) - {heading for heading in parts if heading == heading.upper()}
        same(headings, set(commands), "the commands of the page")
        for command, does in commands.items():
            same(plain(parts[command].splitlines()[0]), f"{does}.", f"what {command} does")
    same(options_in(told), options, "the options of the page")
    block = re.search(r"^\.EX\n((?:.*\n)*?)\.EE$", told if name else parts["FAULTS AND EXIT STATUS"], re.M)
    same(plain(block[1]).rstrip("\n") if block else "", behind, "what the page has behind the options")


def compare_usage(top, name):
    """The usage of ledger or shared_ledger has the options of the page and of the completion."""
    usage = run([top / "bin" / name, "--help"], top, status=2)
    options = set(re.findall(r"--[a-z-]+", usage))
    want(options, f"{name} has no options")
    parts = parts_of(top / f"share/man/man1/{name}.1")
    same(set(options_in(parts["OPTIONS"])), options, "the options of the page")
    same(set(offered(top, name, top.parent, "-")), options, "what the completion offers")
    lines = {re.sub(r"\s+", " ", line.strip().removeprefix("usage: ")) for line in usage.split("\n\n")[0].splitlines()}
    shown = {plain(re.sub(r"\\f[BIP]", "", line)) for line in parts["SYNOPSIS"].splitlines() if not line.startswith(".")}
    same(shown, lines, "the synopsis of the page")


def offered(top, name, room, *words):
    """What bash offers for the last of these words behind a program's name."""
    found = run(["bash", "--norc", "-c", OFFER, "bash", top / "share/bash-completion/completions" / name, name, *words], room)
    return [line for line in found.split("\n") if line]


# The run


def tests_of(release):
    """Each test with what it says of itself; one that has parts gives each of them."""
    for name in [name for name in Release.__dict__ if name.startswith("test_")]:
        yield getattr(Release, name).__doc__, getattr(release, name)


def attempt(what, call, must_have_all):
    """Makes one test, and answers how many passed and failed. What it gives as parts is made part by part."""
    try:
        parts = call()
        if parts is not None:
            counts = [attempt(f"{what}: {part}", made, must_have_all) for part, made in parts]
            return sum(passed for passed, _ in counts), sum(failed for _, failed in counts)
        print(f"ok: {what}", flush=True)
        return 1, 0
    except Lacking as lacking:
        print(f"{'FAILED' if must_have_all else 'passed over'}: {what}: {lacking}", flush=True)
        return 0, int(must_have_all)
    except Exception as fault:  # What can't be read is as wrong as what is read.
        kind = "" if isinstance(fault, Wrong) else f"{type(fault).__name__}: "
        print(f"FAILED: {what}: {kind}{fault}", flush=True)
        return 0, 1


def check(folder):
    """Makes each test of a release, and answers the status."""
    must_have_all = os.environ.get("NARDSILL_ALL") == "1"
    with tempfile.TemporaryDirectory() as room:
        release = Release(folder, pathlib.Path(room))
        counts = [attempt(what, call, must_have_all) for what, call in tests_of(release)]
    passed, failed = (sum(each) for each in zip(*counts))
    print(f"{passed} passed, {failed} failed")
    return int(failed > 0)
