#!/usr/bin/env python3
"""Deposits that `bagit-keep` receives, fetches and sends; each case is a function below, and says what has to be.

usage: tests/deposits.py ROOT SEED

The variable BAGIT names bagit, the folder is an empty one. Each command is a process, forked from this one. The last line
says how often it was asked for what, and the seed by which moments were chosen.
"""
import functools
import hashlib
import http.server
import io
import json
import os
import random
import re
import shutil
import signal
import stat
import subprocess
import sys
import tarfile
import threading
import time
import unicodedata
import zipfile
from pathlib import Path

root, seed = Path(sys.argv[1]), int(sys.argv[2])
sys.path.insert(0, str(root / "companions"))
from bagitkeep.commands import interrupt, status_of  # noqa: E402
from bagitkeep import fetch, receive, send  # noqa: E402, F401

chance = random.Random(seed)
HERE = Path.cwd()
asked = {}


class Answer:
    """How a command ended, and what it wrote."""

    def __init__(self, status, out, err):
        self.status, self.out, self.err = status, out, err

    def __repr__(self):
        return f"{self.status}\n{self.out}{self.err}"


def begin(words, before=lambda: None):
    """A process that does what a command is asked for."""
    name = f"{os.urandom(8).hex()}"
    sys.stdout.flush()
    number = os.fork()
    if number:
        return number, name
    status = 9
    try:
        for descriptor, end in (1, "out"), (2, "err"):
            file = os.open(HERE / "said" / f"{name}.{end}", os.O_WRONLY | os.O_CREAT)
            os.dup2(file, descriptor)
            os.close(file)
        for signalled in signal.SIGTERM, signal.SIGINT:
            signal.signal(signalled, interrupt)
        before()
        status = status_of(list(map(os.fspath, words)))
        sys.stdout.flush()
    finally:
        os._exit(status)


def end(begun):
    number, name = begun
    _, status = os.waitpid(number, 0)
    said = []
    for kind in "out", "err":
        path = HERE / "said" / f"{name}.{kind}"
        said.append(path.read_text(errors="surrogateescape") if path.exists() else "")
        path.unlink(missing_ok=True)
    answer = Answer(os.waitstatus_to_exitcode(status), *said)
    assert "Traceback" not in answer.err, answer
    return answer


def ask(*words, before=lambda: None):
    asked[words[0]] = asked.get(words[0], 0) + 1
    return end(begin(words, before))


def ends(wanted, *words, says="", before=lambda: None):
    answer = ask(*words, before=before)
    is_said = says in answer.out + answer.err or "bagit can't read it: " in answer.err and str(words[1]).endswith(".tar")
    assert answer.status == wanted and is_said, f"{words}: {answer!r}\nwanted: {wanted} {says}"
    return answer


def new_bag(path, files, version="1.0", info=b"External-Identifier: A 2026/17\n", fetched=""):
    """A bag with a payload of these files, by RFC 8493."""
    shutil.rmtree(path, ignore_errors=True)
    path.mkdir(parents=True)
    (path / "data").mkdir()
    (path / "bagit.txt").write_text(f"BagIt-Version: {version}\nTag-File-Character-Encoding: UTF-8\n")
    (path / "bag-info.txt").write_bytes(info)
    lines = []
    for name, content in files.items():
        (path / "data" / name).parent.mkdir(parents=True, exist_ok=True)
        (path / "data" / name).write_bytes(content)
        spelled = name.replace("%", "%25").replace("\n", "%0A").replace("\r", "%0D")
        lines.append(f"{hashlib.sha256(content).hexdigest()}  data/{spelled}\n")
    (path / "manifest-sha256.txt").write_text("".join(lines))
    if fetched:
        (path / "fetch.txt").write_text(fetched)
    names = sorted(it.name for it in path.iterdir() if it.is_file())
    lines = [f"{hashlib.sha256((path / it).read_bytes()).hexdigest()}  {it}\n" for it in names]
    (path / "tagmanifest-sha256.txt").write_text("".join(lines))
    return path


def tree(path):
    """All that is below a folder: its files with their bytes."""
    found = {}
    for folder, folders, files in os.walk(os.fsencode(path)):
        for name in folders:
            found[os.path.relpath(os.path.join(folder, name), os.fsencode(path))] = None
        for name in files:
            place = os.path.join(folder, name)
            with open(place, "rb") as file:
                found[os.path.relpath(place, os.fsencode(path))] = file.read()
    return found


def is_valid(path):
    done = subprocess.run([os.environ["BAGIT"], "--validate", "."], cwd=path, capture_output=True)
    return (done.returncode, done.stdout) == (0, b". is valid\n")


def new_store(name="store"):
    """A store that has a bag, and what has no name as one."""
    store = HERE / name
    shutil.rmtree(store, ignore_errors=True)
    new_bag(store / "older", {"a": b"older"})
    return store


def receipt_in(store, decision):
    """The only receipt of a store, which says this, as its page does."""
    (path,) = store.glob(".receipts/*.json")
    (page,) = store.glob(".receipts/*.html")
    receipt = json.loads(path.read_text())
    assert receipt["decision"] == decision, receipt
    assert f"Receipt {receipt['number']}: {decision}" in page.read_text()
    assert path.stem == page.stem == receipt["number"]
    return receipt


def refused(deposit, says, *words, status=3, receipt="refused"):
    """A deposit isn't taken, it stays as it is, and nothing of it is in the store."""
    store = new_store()
    was, before = tree(store), deposit.read_bytes() if deposit.is_file() else tree(deposit)
    answer = ends(status, "receive", deposit, store, *words, says=says)
    assert (deposit.read_bytes() if deposit.is_file() else tree(deposit)) == before, "the deposit was altered"
    found = tree(store)
    assert {k: v for k, v in found.items() if not k.startswith(b".receipts")} == was, found.keys()
    if receipt:
        assert receipt_in(store, receipt)["folder"] is None
    return answer


def accepted(deposit, like, *words, name=None, decision=None):
    """A deposit is taken, and is this bag then."""
    store = new_store()
    answer = ends(0, "receive", deposit, store, *words)
    found = store / (name or like.name)
    assert tree(found) == tree(like), tree(found)
    assert is_valid(found) and sorted(os.listdir(store)) == sorted([".receipts", found.name, "older"])
    decision = decision or re.search("accepted( with remarks)?", answer.out)[0]
    assert f"{str(found).replace(' ', '%20')} is {decision} (receipt: " in answer.out, answer
    receipt = receipt_in(store, decision)
    assert receipt["folder"] == str(found)
    return receipt


def pack(*words, cwd=HERE):
    subprocess.run(list(map(str, words)), check=True, cwd=cwd, capture_output=True, env={**os.environ, "LC_ALL": "C.UTF-8"})


ODD = {"a": b"a" * 3000, "sub/é": b"", "odd/-x $(touch pwned) 100%\n\"'": b"odd", "long/" + "n" * 200 + "/" + "m" * 200: b"l"}


def tars_and_zips():
    """What GNU tar, bsdtar and zip pack is taken, and is what was packed."""
    bag = new_bag(HERE / "deposit", ODD)
    for form in "gnu", "pax", "ustar", "oldgnu":
        if form == "ustar":  # which has no such long names
            continue
        pack("tar", "-C", HERE, f"--format={form}", "-cf", f"{form}.tar", "deposit")
        receipt = accepted(HERE / f"{form}.tar", bag)
    assert receipt["arrived"]["sha256"] == hashlib.sha256((HERE / "oldgnu.tar").read_bytes()).hexdigest()
    assert receipt["arrived"]["bytes"] == (HERE / "oldgnu.tar").stat().st_size
    assert receipt["bag"]["external_identifier"] == "A 2026/17" and receipt["bag"]["files"] == 4
    assert receipt["bag"]["compared"] == {"manifest-sha256.txt": 4, "tagmanifest-sha256.txt": 3}
    assert receipt["bag"]["tag_files"]["bagit.txt"] == hashlib.sha256((bag / "bagit.txt").read_bytes()).hexdigest()
    for tool, end in ("gzip", "gz"), ("bzip2", "bz2"), ("xz", "xz"), ("zstd", "zst"):
        if shutil.which(tool):
            shutil.copy("gnu.tar", "packed.tar")
            pack(tool, "-f", "packed.tar")
            assert accepted(HERE / f"packed.tar.{end}", bag)["arrived"]["form"] == f"tar.{end}"
    if shutil.which("bsdtar"):
        pack("bsdtar", "-cf", "bsd.tar", "deposit")
        pack("bsdtar", "--format", "zip", "-cf", "bsd.zip", "deposit")
        accepted(HERE / "bsd.tar", bag)
        accepted(HERE / "bsd.zip", bag)
    if shutil.which("zip"):
        plain = new_bag(HERE / "plain", {it: content for it, content in ODD.items() if "\n" not in it})
        pack("zip", "-qr", "linux.zip", "plain")
        accepted(HERE / "linux.zip", plain)
    accepted(bag, bag)
    (bag / "data/empty").mkdir()
    pack("tar", "-cf", "folders.tar", "./deposit")
    receipt = accepted(HERE / "folders.tar", bag, decision="accepted with remarks")
    assert receipt["remarks"][0] == "empty folders: 1 (data/empty)", receipt
    assert not os.path.exists("pwned")


class RawInfo(zipfile.ZipInfo):
    """A file in a .zip by a name of these bytes."""

    def _encodeFilenameFlags(self):
        return self.raw, self.flags


def written_zip(name, files, system=0, utf8=False, mode=0, method=zipfile.ZIP_STORED):
    """A .zip with these raw names, as a program of this system writes it."""
    with zipfile.ZipFile(name, "w", method) as packed:
        for number, (raw, content) in enumerate(files):
            info = RawInfo(str(number))
            info.raw, info.flags = raw, 0x800 if utf8 else 0
            info.create_system, info.external_attr, info.compress_type = system, mode << 16, method
            packed.writestr(info, content)
    return HERE / name


def members(bag, separator="/", encoding="utf-8", top=True):
    """The files of a bag, as a .zip may have them."""
    prefix = f"{bag.name}{separator}" if top else ""
    return [
        ((prefix + os.fsdecode(path).replace("/", separator)).encode(encoding), content)
        for path, content in tree(bag).items() if content is not None
    ]


def windows():
    """A .zip of Windows: backslashes, names in cp850, no mark of UTF-8; and what macOS adds."""
    bag = new_bag(HERE / "windows", {"Übersicht.txt": b"u", "sub/naïve": b"n"})
    accepted(written_zip("w.zip", members(bag), utf8=True), bag, decision="accepted")
    accepted(written_zip("w.zip", members(bag)), bag, decision="accepted")
    deposit = written_zip("w.zip", members(bag, encoding="cp850"))
    refused(deposit, "isn't UTF-8")
    refused(deposit, "has faults", "--names", "cp1252", status=1)
    receipt = accepted(deposit, bag, "--names", "cp850", decision="accepted with remarks")
    assert receipt["remarks"] == ["names read as cp850: 2"], receipt
    deposit = written_zip("w.zip", members(bag, "\\", "cp850"))
    refused(deposit, "")
    receipt = accepted(deposit, bag, "--names", "cp850", decision="accepted with remarks")
    assert receipt["remarks"][1:] == ["names read with / for \\: 6"], receipt
    plain = new_bag(HERE / "plain", {"a": b"a"})
    deposit = written_zip("w.zip", members(plain, "\\"))
    refused(deposit, "a backslash: --names, as of cp850")
    accepted(deposit, plain, "--names", "cp437", decision="accepted with remarks")
    added = [(b"Thumbs.db", b"x"), (b"Desktop.ini", b"x")]
    receipt = accepted(written_zip("w.zip", members(plain) + added), plain, decision="accepted with remarks")
    assert receipt["remarks"] == ["set aside Thumbs.db and Desktop.ini: 2"], receipt
    added = [(b"__MACOSX/plain/._a", b"x"), (b".DS_Store", b"x")]
    receipt = accepted(written_zip("w.zip", members(plain) + added), plain, decision="accepted with remarks")
    assert receipt["remarks"] == ["set aside __MACOSX and .DS_Store: 2"], receipt
    # No folder at the top, or several.
    deposit = written_zip("w.zip", members(plain, top=False))
    refused(deposit, "--as gives its name")
    accepted(deposit, plain, "--as", "plain", decision="accepted with remarks")
    for loose in b"other/a", b"notes.txt":
        answer = refused(written_zip("w.zip", members(plain) + [(loose, b"")]), "2 (plain, ")
        assert "ask for one that has" in answer.err and "--as" not in answer.err, answer
    refused(written_zip("w.zip", [(b"plain", b"")]), "1 (plain)): ask for one that has")
    accepted(written_zip("w.zip", members(plain)), plain, "--as", "other name", name="other name")
    hidden = written_zip("w.zip", [(b".x/" + name.partition(b"/")[2], content) for name, content in members(plain)])
    refused(hidden, ".x is no name for a bag")
    option = written_zip("w.zip", [(b"-rf/" + name.partition(b"/")[2], content) for name, content in members(plain)])
    refused(option, "-rf is no name for a bag: --as gives another")
    accepted(option, plain, "--as", "rf", name="rf")


def hostile_zips():
    """A .zip that is unfit is refused by the name of what is wrong, before anything is unpacked."""
    bag = new_bag(HERE / "plain", {"a": b"a"})
    good = members(bag)
    for extra, says in (
        ([(b"plain/../../evil", b"")], "has an empty part, . or .."),
        ([(b"/evil", b"")], "/evil is absolute"),
        ([(b"plain//evil", b"")], "has an empty part"),
        ([(b"plain/data/a", b"b")], "plain/data/a is there twice"),
        ([(b"plain/data/A", b"b")], "differ by case or normal form alone"),
        ([(b"plain/DATA/b", b"b")], "plain/data and plain/DATA differ by case"),
        ([("plain/é".encode(), b""), (unicodedata.normalize("NFD", "plain/é").encode(), b"")], "normal form alone"),
        ([(b"plain/data", b"")], "plain/data is there twice"),
        ([(b"plain/data/a/b", b"")], "plain/data/a is there twice"),
        ([(b"plain/a\0b", b"")], "has a byte of 0"),
        ([(b"plain/" + b"d/" * 300 + b"f", b"")], "is too long"),
    ):
        refused(written_zip("h.zip", good + extra), says)
    for mode, says in (stat.S_IFLNK, "is a link"), (stat.S_IFIFO, "a device or a pipe"), (stat.S_IFBLK, "a device or a pipe"):
        refused(written_zip("h.zip", good, system=3, mode=mode | 0o644), says)
    refused(written_zip("h.zip", good + [(b"plain/b", bytes(3_000_000))], method=zipfile.ZIP_DEFLATED), "more than 1,000 times")
    refused(written_zip("h.zip", good), "more bytes than there may be", "--max-bytes", "100")
    refused(written_zip("h.zip", good), "more files and folders than", "--max-files", "3")
    whole = written_zip("h.zip", good).read_bytes()
    encrypted = bytearray(whole)
    for at in range(len(whole) - 4):
        for head, flags in (b"PK\3\4", 6), (b"PK\1\2", 8):
            if whole[at:at + 4] == head:
                encrypted[at + flags] |= 1
    (HERE / "h.zip").write_bytes(encrypted)
    refused(HERE / "h.zip", "is encrypted")
    for content in whole + b"x", whole[:-1], whole[:len(whole) // 2], whole[:40], b"", b"7z\xbc\xaf\x27\x1c" + bytes(600):
        (HERE / "h.zip").write_bytes(content)
        refused(HERE / "h.zip", "")
    # Two files in one, of which readers take the second; also by offsets that count from where it begins.
    for fix in "true", "zip":
        (HERE / "two.zip").write_bytes(whole + whole)
        pack(fix, "-Aq", "two.zip")
        refused(HERE / "two.zip", "something stands before the archive's first member")
    at = whole.index(b"a", whole.index(b"plain/data/a") + 12)
    (HERE / "h.zip").write_bytes(whole[:at] + b"b" + whole[at + 1:])
    refused(HERE / "h.zip", "Bad CRC-32")
    # Two files of one local header.
    local = whole.index(b"PK\1\2")
    doubled = bytearray(whole)
    second = whole.index(b"PK\1\2", local + 4)
    doubled[second + 42:second + 46] = doubled[local + 42:local + 46]
    (HERE / "h.zip").write_bytes(doubled)
    refused(HERE / "h.zip", "lies in another file")


def written_tar(name, extra, bag, **how):
    """A .tar of a bag, with members of these names and types."""
    with tarfile.open(name, "w", **how) as packed:
        packed.add(bag, bag.name)
        for path, kind, content, linked in extra:
            info = tarfile.TarInfo(path)
            info.type, info.size, info.linkname = kind, len(content), linked
            packed.addfile(info, io.BytesIO(content))
    return HERE / name


def hostile_tars():
    """The same of a .tar."""
    bag = new_bag(HERE / "plain", {"a": b"a"})
    file, folder = tarfile.REGTYPE, tarfile.DIRTYPE
    for path, kind, content, linked, says in (
        ("plain/../../evil", file, b"x", "", "has an empty part, . or .."),
        ("/evil", file, b"x", "", "/evil is absolute"),
        ("plain/link", tarfile.SYMTYPE, b"", "/etc/passwd", "plain/link is a link"),
        ("plain/hard", tarfile.LNKTYPE, b"", "plain/data/a", "plain/hard is a hard link"),
        ("plain/hole", tarfile.CHRTYPE, b"", "", "is a device"),
        ("plain/pipe", tarfile.FIFOTYPE, b"", "", "is a pipe"),
        ("plain/odd", b"V", b"", "", "unknown type"),
        ("plain/data/a", file, b"b", "", "is there twice"),
        ("plain/data/A", file, b"b", "", "differ by case"),
        ("plain/data", file, b"b", "", "is there twice"),
        ("plain/data/a", folder, b"", "", "is there twice"),
        ("evil", file, b"b", "", "ask for one that has"),
        ("plain/data/b", file, b"b", "", "has faults"),
    ):
        refused(written_tar("h.tar", [(path, kind, content, linked)], bag), says, status=1 if says == "has faults" else 3)
    written_tar("h.tar", [], bag, format=tarfile.PAX_FORMAT, pax_headers={"path": "plain/evil"})
    refused(HERE / "h.tar", "named by a header for all")
    # A name in another encoding.
    latin = new_bag(HERE / "plain", {"é": b"e"})
    os.rename(latin / "data/é", os.fsencode(latin) + b"/data/\xe9")
    pack("tar", "-cf", "latin.tar", "plain")
    refused(HERE / "latin.tar", "has a name that no bag has")
    refused(latin, "isn't UTF-8")
    # Bombs, and what isn't an archive file.
    bag = new_bag(HERE / "plain", {"a": bytes(2_000_000)})
    pack("tar", "-cf", "bomb.tar", "plain")
    for tool, end in ("bzip2", "bz2"), ("xz", "xz"):
        pack(tool, "-kf", "bomb.tar")
        refused(HERE / f"bomb.tar.{end}", "compressed more than 1,000 times")
    header = tarfile.TarInfo("x")
    header.type, header.size = tarfile.XHDTYPE, 1 << 40
    (HERE / "h.tar").write_bytes(header.tobuf(tarfile.GNU_FORMAT) + bytes(1 << 16))
    refused(HERE / "h.tar", "has a header of")
    (HERE / "h.tar").write_bytes(b"no archive" * 100)
    refused(HERE / "h.tar", "can't be read")
    for content in b"", b"%PDF-1.7" * 100, b"7z\xbc\xaf\x27\x1c" + bytes(600):
        (HERE / "other.pdf").write_bytes(content)
        refused(HERE / "other.pdf", "is refused: it is not a folder, .tar or .zip")
        pack("gzip", "-kf", "other.pdf")
        refused(HERE / "other.pdf.gz", "is refused: it is not a folder, .tar or .zip")
    os.mkfifo("pipe")
    ends(3, "receive", "pipe", new_store(), says="neither a file nor a folder")


def by_gnu_tar(deposit, like):
    """Whether GNU tar unpacks this bag."""
    shutil.rmtree("gnu", ignore_errors=True)
    os.mkdir("gnu")
    done = subprocess.run(["tar", "-xf", deposit, "-C", "gnu"], capture_output=True)
    return done.returncode == 0 and os.listdir("gnu") == [like.name] and tree(Path("gnu", like.name)) == tree(like)


def cut_off():
    """Cut off at each block, and beside each, a .tar is refused, or has lost zeros alone."""
    bag = new_bag(HERE / "plain", {"a": b"a" * 600, "b": b""})
    pack("tar", "-b", "1", "-cf", "whole.tar", "plain/bagit.txt", "plain/bag-info.txt", "plain/manifest-sha256.txt", "plain/data",
         "plain/tagmanifest-sha256.txt")
    whole = (HERE / "whole.tar").read_bytes()
    with tarfile.open("whole.tar") as packed:
        last = packed.getmembers()[-1]
    end_mark = last.offset_data + (last.size + 511) // 512 * 512
    for cut in [*range(0, len(whole), 512), *(chance.randrange(len(whole)) for _ in range(12)), end_mark + 1023]:
        (HERE / "cut.tar").write_bytes(whole[:cut])
        if cut < end_mark + 1024:
            refused(HERE / "cut.tar", "")
        else:
            accepted(HERE / "cut.tar", bag)
            assert by_gnu_tar("cut.tar", bag)
    (HERE / "cut.tar").write_bytes(whole)
    pack("gzip", "-kf", "cut.tar")
    (HERE / "cut.tar.gz").write_bytes((HERE / "cut.tar.gz").read_bytes()[:-9])
    refused(HERE / "cut.tar.gz", "unexpected end of file")
    (HERE / "cut.tar").write_bytes(whole + bytes(700))
    accepted(HERE / "cut.tar", bag)
    for added in b"x", bytes(511) + b"x", whole:
        (HERE / "cut.tar").write_bytes(whole + added)
        refused(HERE / "cut.tar", "something comes after its end")
    # A damaged byte anywhere is refused, or the bag is what GNU tar unpacks.
    for _ in range(12):
        at = chance.randrange(end_mark)
        (HERE / "cut.tar").write_bytes(whole[:at] + bytes([whole[at] ^ 1 << chance.randrange(8)]) + whole[at + 1:])
        store = new_store()
        answer = ask("receive", "cut.tar", store)
        if answer.status == 0:
            assert by_gnu_tar("cut.tar", store / "plain") and is_valid(store / "plain"), (at, answer)
        else:
            assert sorted(os.listdir(store)) == [".receipts", "older"], (at, answer)


def folders_and_arguments():
    """Folders with what no bag has; digests of the sender; receipts; wrong arguments, by which nothing is begun."""
    bag = new_bag(HERE / "deposit", {"a": b"a"})
    pack("tar", "-cf", "deposit.tar", "deposit")
    digest = hashlib.sha512((HERE / "deposit.tar").read_bytes()).hexdigest()
    receipt = accepted(HERE / "deposit.tar", bag, "--digest", f"SHA-512:{digest.upper()}")
    assert receipt["said_by_the_sender"] == f"sha512:{digest}"
    refused(HERE / "deposit.tar", "its md5 is", "--digest", "md5:" + "0" * 32)
    store = new_store()
    was = tree(store)
    for words in (
        [], ["deposit"], ["", store], ["deposit", store, "more"], ["deposit", "nowhere"], ["deposit", "deposit.tar"],
        ["deposit", "deposit/data"], ["deposit", "deposit"], ["deposit", store, "--digest", f"sha512:{digest}"],
        ["deposit.tar", store, "--digest", "sha512:12"], ["deposit.tar", store, "--digest", digest],
        ["deposit", store, "--names", "no-encoding"], ["deposit", store, "--names", "hex"], ["deposit", store, "--as", "a/b"],
        ["deposit", store, "--as", ".."], ["deposit", store, "--as", ".a"], ["deposit", store, "--as=-a"], ["deposit", store, "--allow", "localhost"],
        ["deposit", store, "--max-bytes", "-1"], ["deposit", store, "--receipt", "r.html"], ["deposit", store, "--other"],
    ):
        ends(2, "receive", *words)
    ends(3, "receive", "nowhere", store)
    ends(3, "receive", "deposit", store, before=lambda: os.environ.update(BAGIT="/nowhere"))
    assert tree(store) == was
    # A receipt elsewhere replaces nothing.
    ends(0, "receive", "deposit", store, "--receipt", "ours.json")
    assert json.loads(Path("ours.json").read_text())["decision"] == "accepted" and Path("ours.html").exists()
    assert not (store / ".receipts").exists()
    for name, kept in ("older", was[b"older/data/a"]), ("deposit", b"a"):
        ends(3, "receive", "deposit", store, "--as", name, says="is there already")
        assert (store / name / "data/a").read_bytes() == kept
    was = tree(store)
    ends(3, "receive", "deposit", store, "--as", "again", "--receipt", "ours.json", says="is there already")
    assert tree(store) == was
    # Folders.
    (bag / "data/link").symlink_to("a")
    refused(bag, "data/link is a link")
    (bag / "data/link").unlink()
    os.mkfifo(bag / "data/pipe")
    answer = ends(3, "receive", bag, new_store(), says="data/pipe is a device or a pipe")
    (bag / "data/pipe").unlink()
    (bag / "data/a").write_bytes(b"b")
    answer = refused(bag, "701 payload-sum-differs data/a sha256 - ", status=1)
    receipt = receipt_in(HERE / "store", "refused")
    assert receipt["faults"][0]["means"] == "A payload file's checksum differs from its manifest's. The detail is EXPECTED:FOUND."
    assert "is refused" in answer.out and answer.out.endswith(f"{bag} has faults: 1\n"), answer
    assert receipt["why"] == "has faults: 1"
    refused(new_store("other") / "nothing" if (HERE / "other/nothing").mkdir(parents=True) else HERE / "other/nothing", "101", status=1)
    # What a check passes over.
    bag = new_bag(HERE / "deposit", {"A": b"", "a": b"", "con.txt": b"", "in/bagit.txt": b"", "in/x:": b""})
    (bag / "notes.txt").write_text("notes")
    for tags in "manifest-sha256.txt", "tagmanifest-sha256.txt":
        (bag / tags).rename(bag / tags.replace("sha256", "md5"))
    (bag / "manifest-md5.txt").write_text("".join(f"{hashlib.md5(b'').hexdigest()}  data/{it}\n" for it in
                                                  ("A", "a", "con.txt", "in/bagit.txt", "in/x:")))
    (bag / "tagmanifest-md5.txt").write_text("".join(f"{hashlib.md5((bag / it).read_bytes()).hexdigest()}  {it}\n" for it in
                                                     ("bagit.txt", "bag-info.txt", "manifest-md5.txt")))
    receipt = accepted(bag, bag, decision="accepted with remarks")
    assert sorted(receipt["remarks"]) == sorted([
        "no payload manifest but of MD5 or SHA-1", "tag files that no tag manifest names: 1 (notes.txt)",
        "bags in the bag: 1 (data/in/bagit.txt)", "names that Windows refuses: 2 (data/con.txt, data/in/x:)",
        "names that differ by case or normal form alone: 1 (data/a)"]), receipt["remarks"]


def profiles():
    """A profile is judged with what it says of archive files."""
    bag = new_bag(HERE / "deposit", {"a": b"a"}, info=b"BagIt-Profile-Identifier: x\n")
    pack("tar", "-cf", "deposit.tar", "deposit")
    written_zip("deposit.zip", members(bag))
    profile = {"BagIt-Profile-Info": {"BagIt-Profile-Identifier": "x"}, "Serialization": "required",
               "Accept-Serialization": ["application/zip"]}
    Path("p.json").write_text(json.dumps(profile))
    accepted(HERE / "deposit.zip", bag, "--profile", "p.json")
    refused(HERE / "deposit.tar", "the profile accepts application/zip", "--profile", "p.json")
    refused(bag, "813 serialization-required", "--profile", "p.json", status=1)
    Path("p.json").write_text(json.dumps({**profile, "Serialization": "forbidden"}))
    refused(HERE / "deposit.zip", "allows no archive file", "--profile", "p.json")
    receipt = accepted(bag, bag, "--profile", "p.json", decision="accepted with remarks")
    assert receipt["profile_not_checked"] == ["Accept-Serialization"], receipt
    assert receipt["remarks"] == ["keys of the profile that weren't checked: 1 (Accept-Serialization)"], receipt
    Path("p.json").write_text(json.dumps({**profile, "Data-Empty": True, "Bag-Info": {"Contact-Name": {"required": True}}}))
    refused(HERE / "deposit.zip", "802 label-required", "--profile", "p.json", status=1)
    ends(3, "send", bag, "x.tar", "--profile", "p.json", says="the profile accepts application/zip")
    Path("p.json").write_text(json.dumps({**profile, "Accept-Serialization": ["application/x-tar"], "Data-Empty": True}))
    ends(0, "send", bag, "x.tar", "--profile", "p.json")
    Path("p.json").write_text("{}")
    ends(2, "receive", "deposit.zip", new_store(), "--profile", "p.json")


class Server(http.server.SimpleHTTPRequestHandler):
    """Files, and ways to them."""

    requests = []

    def do_GET(self):
        self.requests.append(self.path)
        if self.path.startswith("/to/"):
            self.send_response(302)
            self.send_header("Location", self.path.partition("=")[2] or self.path[3:])
            self.end_headers()
            self.wfile.write(b"moved")
        elif self.path == "/cut":
            self.send_response(200)
            self.end_headers()
            self.wfile.write(b"he")
        elif self.path == "/endless":
            self.send_response(200)
            self.end_headers()
            try:
                while True:
                    self.wfile.write(bytes(1 << 16))
            except OSError:
                pass
        else:
            super().do_GET()

    def log_message(self, *words):
        pass


def holey(base, url, path="data/sub/hello", more="", length="-"):
    """A bag that lacks a file."""
    bag = new_bag(HERE / "holey", {"a": b"a", "sub/hello": b"hello"}, fetched=f"{base}{url} {length} {path}\n{more}")
    (bag / "data/sub/hello").unlink()
    (bag / "data/sub").rmdir()
    return bag


def fetching():
    """What fetch.txt lists comes from hosts that are allowed, and only with the digests of manifests."""
    Path("served").mkdir()
    Path("served/hello").write_bytes(b"hello")
    Path("served/other").write_bytes(b"other")
    handler = functools.partial(Server, directory=str(HERE / "served"))
    server = http.server.ThreadingHTTPServer(("127.0.0.1", 0), handler)
    threading.Thread(target=server.serve_forever, daemon=True).start()
    base = f"http://127.0.0.1:{server.server_port}"
    allowed = ["--allow", "127.0.0.1"]

    def fetches(status, url, *words, says="", path="data/sub/hello", more="", length="-"):
        bag = holey(base if url.startswith("/") else "", url, path, more, length)
        before = tree(bag)
        Server.requests.clear()
        answer = ends(status, "fetch", bag, *words, says=says)
        assert sorted(it for it in os.listdir(HERE) if it.startswith(".")) == [], os.listdir(HERE)
        if status == 0:
            assert tree(bag) == {**before, b"data/sub": None, b"data/sub/hello": b"hello"} and is_valid(bag)
        else:
            assert tree(bag) == before, tree(bag)
        return answer

    fetches(0, "/hello", *allowed, says="holey is valid")
    ends(0, "fetch", "holey", *allowed)  # there is nothing more to fetch, and the bag is checked
    assert Server.requests == ["/hello"], Server.requests
    fetches(0, "/hello", "--allow", f"127.0.0.1:{server.server_port}")
    fetches(2, "/hello", says="--allow doesn't name these hosts: 127.0.0.1")
    fetches(2, "/hello", "--allow", "localhost", says="127.0.0.1")
    fetches(0, "/to/hello", *allowed)
    fetches(2, "/hello", "--allow", "127.0.0.1:80", says=f"hosts: 127.0.0.1:{server.server_port}")
    elsewhere = f"/to/=http://localhost:{server.server_port}/hello"
    fetches(3, elsewhere, *allowed, says=f"hosts: localhost:{server.server_port}")
    fetches(3, f"/to/={base}/hello".replace("127.0.0.1", "localhost"), "--allow", "localhost:80", *allowed, says="hosts: localhost:")
    for length in "5", "0005", "6", "9" * 5000:
        fetches(0, "/to/hello", *allowed, length=length)
    for length in "4", "0":
        fetches(3, "/hello", *allowed, length=length, says="data/sub/hello wasn't fetched from http://127.0.0.1:")
        fetches(3, "/endless", *allowed, length=length, says="it is longer than fetch.txt says")
    for url in "/none", "/other", elsewhere:
        answer = fetches(0, url, *allowed, more=f"{base}/hello 5 data/sub/hello\n")
        assert "fetched" not in answer.err, answer
    fetches(3, "/none", *allowed, more=f"{base}/other - data/sub/hello\n", says="has other bytes at ")
    fetches(3, "/to/to/to/to/to/to/to/to/to/to/to/to/hello", *allowed, says="always elsewhere")
    fetches(3, "/to/=file:///proc/version", *allowed)
    for url in "/other", "/cut":
        fetches(1, url, *allowed, says="has other bytes")
    fetches(3, "/none", *allowed, says="404")
    fetches(3, "/endless", *allowed, "--max-bytes", "1000000", says="more bytes come")
    for url in "file:///proc/version", "ftp://127.0.0.1/x", f"http://x@127.0.0.1:{server.server_port}/hello", "http://127.0.0.1\\@x/":
        fetches(3, url, *allowed, says="isn't an http or https URL")
        assert Server.requests == []
    for more in f"{base}/hello - data/../../evil\n", f"{base}/hello - /evil\n", f"{base}/hello\n", f"{base}/hello - data/unknown\n":
        fetches(1, "/hello", *allowed, says="nothing is fetched: 40", more=more)
        assert Server.requests == []
    ends(2, "fetch")
    ends(3, "fetch", "served")
    # As a deposit.
    os.mkdir("no-bag")
    Path("no-bag/fetch.txt").write_text(f"{base}/hello - data/hello\n")
    refused(HERE / "no-bag", "101 no-declaration", "--fetch", *allowed, status=1)
    bag = holey(base, "/hello")
    whole = new_bag(HERE / "whole/holey", {"a": b"a", "sub/hello": b"hello"}, fetched=f"{base}/hello - data/sub/hello\n")
    pack("tar", "-cf", "holey.tar", "holey")
    refused(HERE / "holey.tar", "601 payload-file-missing", status=1)
    assert receipt_in(HERE / "store", "refused")["remarks"] == ["files that fetch.txt names: 1 (data/sub/hello)"]
    refused(HERE / "holey.tar", "hosts: 127.0.0.1", "--fetch", status=2, receipt=None)
    receipt = accepted(HERE / "holey.tar", whole, "--fetch", *allowed, decision="accepted with remarks")
    assert receipt["remarks"][0] == "files fetched: 1", receipt
    # One that isn't fetched keeps no other from it.
    several = {"a": b"a", "b": b"b", "sub/hello": b"hello", "to/other": b"other"}
    lines = f"{base}/none - data/b\n{base}/hello 5 data/sub/hello\n{base}{elsewhere} - data/to/other\n"
    lacking = new_bag(HERE / "several", several, fetched=lines)
    for name in "b", "sub/hello", "to/other":
        (lacking / "data" / name).unlink()
    pack("tar", "-cf", "several.tar", "several")
    answer = ends(3, "fetch", lacking, *allowed, says="hosts: localhost:")
    assert (lacking / "data/sub/hello").read_bytes() == b"hello" and answer.out.count("601 payload-file-missing") == 2, answer
    answer = refused(HERE / "several.tar", "hosts: localhost:", "--fetch", *allowed)
    receipt = receipt_in(HERE / "store", "refused")
    assert receipt["why"] == "has faults: 2" and receipt["remarks"][0] == "files fetched: 1", receipt
    assert [it.split(" ")[0] for it in receipt["remarks"][1:3]] == ["data/b", "data/to/other"], receipt
    killed(["fetch", bag, *allowed], bag, lambda: holey(base, "/hello"), lambda: is_valid(bag) and tree(bag) == tree(whole))
    server.shutdown()


def sending():
    """A bag is packed as one that can be unpacked, and no file is replaced."""
    bag = new_bag(HERE / "deposit", ODD)
    os.link(bag / "data/a", bag / "data/hard")
    with open(bag / "manifest-sha256.txt", "a") as file:
        file.write(f"{hashlib.sha256(ODD['a']).hexdigest()}  data/hard\n")
    bag.joinpath("tagmanifest-sha256.txt").unlink()
    before = tree(bag)
    answer = ends(0, "send", bag, "sent.tar")
    assert answer.out == f"{bag} is valid\n{hashlib.sha256(Path('sent.tar').read_bytes()).hexdigest()}  {HERE}/sent.tar\n"
    subprocess.run(["sha256sum", "--check", "--quiet"], input=answer.out.splitlines()[1].encode(), check=True)
    with tarfile.open("sent.tar") as packed:
        found = packed.getmembers()
    assert {it.uname + it.gname + str(it.uid + it.gid) for it in found} == {"0"}
    assert all(it.isreg() or it.isdir() for it in found)
    names = [it.name.encode() for it in found]
    assert names[0] == b"deposit" and names[1:] == sorted(names[1:])
    assert by_gnu_tar("sent.tar", bag) and tree(bag) == before
    ends(0, "send", bag, "again.tar")
    assert Path("again.tar").read_bytes() == Path("sent.tar").read_bytes()
    accepted(HERE / "sent.tar", bag, decision="accepted with remarks")
    for words in ([], [bag], [bag, "sent"], [bag, bag / "x.tar"], [bag, bag / "data/x.tar"], [bag, "x.tar", "y.tar"]):
        ends(2, "send", *words)
    Path("there.tar").write_text("mine")
    ends(3, "send", bag, "there.tar", says="is there already")
    assert Path("there.tar").read_text() == "mine"
    ends(3, "send", "nowhere", "x.tar")
    os.rename(bag, "\udcff")
    ends(3, "send", "\udcff", "x.tar", says="%FF: the bag's name isn't UTF-8")
    os.rename("\udcff", bag)
    ends(3, "send", bag, "nowhere/x.tar")
    (bag / "data/a").write_bytes(b"b")
    ends(1, "send", bag, "x.tar", says="701 payload-sum-differs data/a")
    assert not Path("x.tar").exists()
    # What is altered between the check and the packing isn't sent.
    bag = new_bag(HERE / "deposit", {"a": b"a"})
    real = send.pack

    def alters():
        def pack_altered(bag, path):
            Path(bag, "data/a").write_bytes(b"b")
            real(bag, path)
        send.pack = pack_altered

    ends(3, "send", bag, "x.tar", says="isn't the bag", before=alters)
    assert not Path("x.tar").exists() and [it for it in os.listdir(HERE) if it.startswith(".")] == []
    new_bag(bag, {"a": b"a"})
    killed(["send", bag, "k.tar"], HERE / "k.tar", lambda: Path("k.tar").unlink(missing_ok=True),
           lambda: by_gnu_tar("k.tar", bag))


EVENTS = ("open", "os.", "shutil.", "subprocess.Popen", "ctypes.dlsym", "fcntl.")


def stops_at(moment, count=None):
    """Kills this process at its event of this number, or says how many there are."""
    def before():
        seen = 0

        def hook(event, words):
            nonlocal seen
            if event.startswith(EVENTS):
                seen += 1
                if seen == moment:
                    os.kill(os.getpid(), signal.SIGKILL)
                if count is not None:
                    os.pwrite(count, b"%8d" % seen, 0)
        sys.addaudithook(hook)
    return before


def killed(words, target, begin_anew, is_right, moments=20):
    """A command that is killed at any moment leaves nothing, or what is right; asked again it makes that."""
    begin_anew()
    with open("count", "wb+") as file:
        ends(0, *words, before=stops_at(0, file.fileno()))
        count = int(os.pread(file.fileno(), 8, 0))
    assert is_right() and count > 30, count
    kills = 0
    for moment in sorted(chance.sample(range(1, count + 1), moments - 2)) + [None, count]:
        begin_anew()
        if moment is None:  # while bagit is at work
            answer = ask(*words, before=lambda: os.environ.update(BAGIT=str(HERE / "kills")))
        else:
            answer = ask(*words, before=stops_at(moment))
        assert answer.status in (-9, 0), (moment, answer)
        kills += answer.status == -9
        if words[0] != "fetch":
            assert not os.path.lexists(target) or is_right(), (moment, answer)
        answer = ask(*words)
        is_done = answer.status == 3 and "is there already" in answer.err
        assert answer.status == 0 or is_done, (moment, answer)
        assert is_right(), (moment, answer)
        left = [it for it in os.listdir(Path(target).parent) if it.startswith(".") and it != ".receipts"]
        assert not left, (moment, left, answer)
    assert kills > moments - 3, f"{words[0]} was killed {kills} times"


def receiving_killed():
    """Killed at any moment, the bag isn't in the store or is valid there; the same command then makes it so, with one receipt."""
    bag = new_bag(HERE / "deposit", {**ODD, "b": b"b" * 5_000})
    pack("tar", "-cf", "deposit.tar", "deposit")
    pack("gzip", "-kf", "deposit.tar")
    was = Path("deposit.tar.gz").read_bytes()
    store = HERE / "store"

    def is_right():
        assert (store / "older/data/a").read_bytes() == b"older" and Path("deposit.tar.gz").read_bytes() == was
        return is_valid(store / "deposit") and tree(store / "deposit") == tree(bag)

    def is_right_with_receipt():
        return is_right() and receipt_in(store, "accepted with remarks")["folder"] == str(store / "deposit")

    def is_in_register():
        receipt, = Path("register/receipts").glob("*.json")
        page, = Path("register/receipts").glob("*.html")
        assert receipt.stem == page.stem and "Receipt " + receipt.stem in page.read_text()
        said = ends(0, "history", "register", store / "deposit").out
        assert said.count(" adopted ") == 1 and f"number={receipt.stem} " in said, said
        ends(0, "audit", "register", says="no news: 2 bags")
        return is_right()

    def new_register():
        new_store()
        shutil.rmtree("register", ignore_errors=True)
        ends(0, "init", "register", store)
        ends(0, "adopt", "register")

    killed(["receive", "deposit.tar.gz", store], store / "deposit", new_store, is_right)
    killed_at_the_end(["receive", "deposit.tar.gz", store], new_store, is_right_with_receipt, [".receipts", "deposit", "older"])
    words = ["receive", "deposit.tar.gz", store, "--register", "register"]
    killed_at_the_end(words, new_register, is_in_register, ["deposit", "older"])
    # If the bag is damaged before its receipt comes, nothing is called good.
    new_store()

    def stops_before_receipt():
        receive.publish = lambda *words: os.kill(os.getpid(), signal.SIGKILL)
    assert ask("receive", "deposit.tar.gz", store, before=stops_before_receipt).status == -9
    ends(3, "receive", "deposit.tar.gz", store, "--digest", "sha256:" + "0" * 64, says="isn't what was sent")
    (store / "deposit/data/a").write_bytes(b"x")
    ends(3, "receive", "deposit.tar.gz", store, says="altered before its receipt was written")
    assert not list(store.glob(".receipts/*.json"))
    # A signal ends it, and leaves nothing.
    new_store()
    begun = begin(["receive", "deposit.tar.gz", store], lambda: os.environ.update(BAGIT=str(HERE / "waits")))
    while not Path("waiting").exists():
        time.sleep(0.01)
    os.kill(begun[0], signal.SIGTERM)
    answer = end(begun)
    assert answer.status == 3 and os.listdir(store) == ["older"], (answer, os.listdir(store))


def killed_at_the_end(words, begin_anew, is_right, names):
    """Killed at each moment from the check on, which are few, a deposit is received by the same command, with its receipt."""
    begin_anew()
    real = receive.accept
    with open("count", "wb+") as file:
        def counts():
            def accept(*words):
                stops_at(0, file.fileno())()
                real(*words)
            receive.accept = accept
        ends(0, *words, before=counts)
        count = int(os.pread(file.fileno(), 8, 0))
    assert count > 5, count
    for moment in range(1, count + 1):
        def stops():
            def accept(*words):
                stops_at(moment)()
                real(*words)
            receive.accept = accept
        begin_anew()
        assert ask(*words, before=stops).status == -9 or moment == count
        answer = ask(*words)
        assert answer.status == 0 or "is there already" in answer.err or "in the register already" in answer.err, (moment, answer)
        assert is_right(), (moment, answer)
        assert sorted(os.listdir(words[2])) == names, (moment, os.listdir(words[2]))


def two_at_once():
    """Of two that receive one deposit into one store one does; others don't disturb each other."""
    bags = [new_bag(HERE / f"deposit{number}", {"a": b"%d" % number}) for number in range(3)]
    for bag in bags:
        pack("tar", "-cf", f"{bag.name}.tar", bag.name)
    for _ in range(3):
        store = new_store()
        begun = [begin(["receive", f"{bag.name}.tar", store]) for bag in bags * 2]
        answers = [end(it) for it in begun]
        for one, other, bag in zip(answers, answers[3:], bags):
            assert sorted([one.status, other.status]) == [0, 3], (one, other)
            assert tree(store / bag.name) == tree(bag)
        assert sorted(os.listdir(store)) == sorted([".receipts", "older", *(bag.name for bag in bags)])
        assert len(list(store.glob(".receipts/*"))) >= 6
    # A name that comes meanwhile isn't replaced, though it is an empty folder.
    real = receive.accept
    store = new_store()

    def comes():
        def accept(work, target):
            os.mkdir(target)
            real(work, target)
        receive.accept = accept
    ends(3, "receive", "deposit0.tar", store, before=comes)
    assert os.listdir(store / "deposit0") == [] and sorted(os.listdir(store)) == ["deposit0", "older"]
    # What is written into a deposit meanwhile is seen.
    real_unpack = receive.unpack

    def writes():
        def unpack(*words):
            real_unpack(*words)
            with open("deposit0.tar", "ab") as file:
                file.write(bytes(512))
        receive.unpack = unpack
    store = new_store()
    ends(3, "receive", "deposit0.tar", store, says="was altered meanwhile", before=writes)
    assert os.listdir(store) == ["older"]
    # A bagit that ends in a wrong way is no answer.
    for way in "exit 0", "kill -9 $$", 'echo "$name is valid"; exit 1', 'echo "$name is complete"', 'echo ". is valid"', "exit 137":
        Path("wrong").write_text(f'#!/bin/bash\nname=${{!#}}\n{way}\n')
        os.chmod("wrong", 0o755)
        store = new_store()
        for words in ["receive", "deposit1.tar", store], ["send", bags[1], "x.tar"]:
            ends(3, *words, before=lambda: os.environ.update(BAGIT=str(HERE / "wrong")))
        assert os.listdir(store) == ["older"] and not Path("x.tar").exists()


def full_disk():
    """On a full disk nothing is in the store but what was; with room the same command goes on."""
    bag = new_bag(HERE / "deposit", {str(number): bytes([number]) * 60_000 for number in range(4)})
    pack("tar", "-cf", "deposit.tar", "deposit")
    os.mkdir("disk")
    if os.geteuid() or subprocess.run(["mount", "-t", "tmpfs", "-o", "size=64k", "none", "disk"], capture_output=True).returncode:
        return "no small disk could be mounted"
    try:
        for size in "size=64k", "size=200k", "size=248k", "size=1m,nr_inodes=9", "size=1m,nr_inodes=12":
            subprocess.run(["mount", "-o", f"remount,{size}", "disk"], check=True)
            for words in ["receive", "deposit.tar", "disk", "--max-bytes", "9999999", "--max-files", "999"], ["send", bag, "disk/x.tar"]:
                answer = ask(*words)
                if words[0] == "send" and "inodes" in size and answer.status == 0:  # by a bagit that reads tars it makes few files
                    assert by_gnu_tar("disk/x.tar", bag)
                    os.unlink("disk/x.tar")
                    continue
                assert answer.status == 3, (size, words, answer)
                assert not os.path.exists("disk/deposit") and not os.path.exists("disk/x.tar"), (size, answer)
                assert [it for it in os.listdir("disk") if it != ".receipts"] == [], (size, os.listdir("disk"), answer)
            ends(3, "receive", "deposit.tar", "disk", "--receipt", f"{size}.json")
        subprocess.run(["mount", "-o", "remount,size=4m,nr_inodes=99", "disk"], check=True)
        ends(0, "receive", "deposit.tar", "disk", "--receipt", "elsewhere.json")
        assert is_valid("disk/deposit") and tree("disk/deposit") == tree(bag) and Path("elsewhere.html").exists()
        ends(0, "send", bag, "disk/x.tar")
    finally:
        subprocess.run(["umount", "disk"], check=True)
    return "a small disk was filled"


def another_user():
    """As somebody who may not write there, nothing is done; into a store of his own he receives."""
    if os.geteuid():
        return
    bag = new_bag(HERE / "deposit", {"a": b"a"})
    pack("tar", "-cf", "deposit.tar", "deposit")

    def becomes_nobody():
        sys.executable = shutil.which("python3", path="/usr/bin:/bin") or sys.executable
        os.setgroups([])
        os.setgid(65534)
        os.setuid(65534)

    store = new_store()
    os.chmod("said", 0o777)
    os.chmod(HERE, 0o755)
    for words in ["receive", "deposit.tar", store], ["send", bag, "mine.tar"], ["fetch", bag]:
        ends(3, *words, says="Permission denied", before=becomes_nobody)
    assert sorted(os.listdir(store)) == ["older"] and not Path("mine.tar").exists()
    os.mkdir("theirs")
    os.chown("theirs", 65534, 65534)
    os.chmod("deposit.tar", 0o600)
    ends(3, "receive", "deposit.tar", "theirs", says="Permission denied", before=becomes_nobody)
    os.chmod("deposit.tar", 0o644)
    ends(0, "receive", "deposit.tar", "theirs", before=becomes_nobody)
    ends(0, "send", bag, "theirs/mine.tar", before=becomes_nobody)
    assert tree("theirs/deposit") == tree(bag) and os.stat("theirs/deposit/data/a").st_uid == 65534


os.mkdir("said")
os.environ["LC_ALL"] = "C.UTF-8"
for name, text in ("kills", "kill -9 $PPID"), ("waits", "touch waiting; exec sleep 60"):
    last = f'[ "${{!#}}" = /dev/null ] && exec {os.environ["BAGIT"]} "$@"'
    Path(name).write_text(f"#!/bin/bash\n{last}\n{text}\nexec {os.environ['BAGIT']} \"$@\"\n")
    os.chmod(name, 0o755)
CASES = [tars_and_zips, windows, hostile_zips, hostile_tars, cut_off, folders_and_arguments, profiles, fetching, sending,
         receiving_killed, two_at_once, full_disk, another_user]
disk = ""
for case in CASES:
    if not sys.argv[3:] or case.__name__ in sys.argv[3:]:
        for path in HERE.iterdir():
            if path.name not in ("said", "kills", "waits"):
                shutil.rmtree(path) if path.is_dir() else path.unlink()
        begun = time.process_time() + sum(os.times()[2:4])
        said = case()
        disk = said or disk
        if sys.argv[3:]:
            print(case.__name__, round(time.process_time() + sum(os.times()[2:4]) - begun, 1), "s")
assert not os.path.exists("pwned") and not os.path.exists("evil")
counts = ", ".join(f"{name} {count} times" for name, count in sorted(asked.items()))
print(f"bagit-keep ended as it should: {counts}; {disk} (seed {seed})")
