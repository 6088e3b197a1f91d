#!/usr/bin/env python3
"""Whether a folder is a valid bag (RFC 8493), and what a renewed bag must be: a reference of its own kind, in plain
Python, which has nothing of the programs but what their pages say.

usage: renew.py valid FOLDER..
       renew.py renewed FOLDER NEW [OPTIONS]

`valid` names the first reason why a folder isn't a valid bag; the status is 1 then. `renewed` writes the bag that
`bagit-renew OPTIONS FOLDER` must leave to NEW, a new folder, or says why it must be refused; the status is 1 then.

Bags are of version 1.0 or 0.97, each read and written by its own rules, with tag files in UTF-8, and manifests by the six
algorithms below. Paths are bytes.
"""
import hashlib
import os
import re
import stat
import sys
from argparse import ArgumentParser
from typing import NamedTuple

ALGORITHMS = ("md5", "sha1", "sha224", "sha256", "sha384", "sha512")
DECLARATION, INFO, FETCH, BEGUN = b"bagit.txt", b"bag-info.txt", b"fetch.txt", b".bagit-begun"
DECLARED = b"BagIt-Version: 1.0\nTag-File-Character-Encoding: UTF-8\n"
OXUM = "Payload-Oxum"
MANIFEST = re.compile(rb"(tag)?manifest-([a-z0-9]+)\.txt")
OTHER = re.compile(rb"tagmanifest-[^/]*\.txt", re.S)
LINE = re.compile(r"([0-9A-Fa-f]+)[ \t]+\*?(?:\./)?(.+)", re.S)
FETCHED = re.compile(r"[^ \t]+[ \t]+(?:-|[0-9]+)[ \t]+(?:\./)?(.+)", re.S)
BLANKS = " \t"


class Invalid(Exception):
    """Why a folder isn't a valid bag."""


class Refused(Exception):
    """Each reason why a bag isn't renewed, as the program's line says it; `fault` of a bag that isn't valid."""


class Options(NamedTuple):
    add: tuple = ()
    drop: tuple = ()
    unchecked: bool = False
    unset: tuple = ()
    set: tuple = ()  # pairs of a label and a value, and so are those appended
    append: tuple = ()
    to_1_0: bool = False

    def words(self):
        """These options on a command line."""
        lists = [f"--{name}={','.join(values)}" for name, values in (("add", self.add), ("drop", self.drop)) if values]
        unset = [f"--unset={label}" for label in self.unset]
        given = [f"--{name}={label}={value}" for name in ("set", "append") for label, value in getattr(self, name)]
        flags = [flag for flag, is_given in (("--unchecked", self.unchecked), ("--to-1.0", self.to_1_0)) if is_given]
        return [*lists, *unset, *given, *flags]

    def has_elements(self):
        return bool(self.unset or self.set or self.append)


# ---- what stands in a folder


def listed(folder):
    """Its files by path, with what `stat` says of each; links and other things have no place in a bag."""
    found, folders = {}, [b""]
    for below in folders:
        for entry in os.scandir(os.path.join(os.fsencode(folder), below)):
            path = below + entry.name
            check_utf8(path)
            if entry.is_dir(follow_symlinks=False):
                folders.append(path + b"/")
            elif entry.is_file(follow_symlinks=False):
                found[path] = entry.stat(follow_symlinks=False)
            else:
                raise Invalid(f"{path} is neither a file nor a folder")
    return found


def held(folder):
    """The bytes of its files, by path."""
    return contents(folder, listed(folder))


def contents(folder, paths):
    """The bytes of some of its files."""
    files = {}
    for path in paths:
        with open(os.path.join(os.fsencode(folder), path), "rb") as file:
            files[path] = file.read()
    return files


def check_utf8(path):
    try:
        path.decode()
    except UnicodeDecodeError as error:
        raise Invalid(f"{path} isn't UTF-8") from error


def payload_of(files):
    return {path: content for path, content in files.items() if path.startswith(b"data/")}


def manifests_of(files):
    """The manifests, as whether it is one of tag files, its algorithm and its path."""
    found = [(MANIFEST.fullmatch(path), path) for path in sorted(files)]
    return [(bool(match[1]), match[2].decode(), path) for match, path in found if match]


def algorithms_of(files):
    return [algorithm for is_tag, algorithm, _ in manifests_of(files) if not is_tag]


def manifest_path(algorithm):
    return f"manifest-{algorithm}.txt".encode()


def tag_manifest_path(algorithm):
    return b"tag" + manifest_path(algorithm)


# ---- what tag files say


def lines_of(path, content):
    try:
        text = content.decode()
    except UnicodeDecodeError as error:
        raise Invalid(f"{path} isn't UTF-8") from error
    lines = re.split("\r\n|\n|\r", text.removeprefix("\ufeff"))
    return lines if lines[-1] else lines[:-1]


def version_of(files):
    """The version that a bag declares (2.1.1)."""
    if DECLARATION not in files:
        raise Invalid("there is no bagit.txt")
    if files[DECLARATION].startswith(b"\xef\xbb\xbf"):
        raise Invalid("bagit.txt begins with a byte order mark")
    lines = lines_of(DECLARATION, files[DECLARATION])
    if len(lines) != 2 or lines[0] not in ("BagIt-Version: 1.0", "BagIt-Version: 0.97"):
        raise Invalid("bagit.txt declares no version that is known")
    if lines[1].lower() != "tag-file-character-encoding: utf-8":
        raise Invalid("bagit.txt declares another encoding")
    return lines[0].removeprefix("BagIt-Version: ")


def known_version(files):
    """The same, or none where it isn't declared."""
    try:
        return version_of(files)
    except Invalid:
        return ""


def path_of(spelled, version):
    """The path that a manifest spells, which has to be safe (2.1.3, 5.1)."""
    ends = {"%0a": "\n", "%0d": "\r"}
    if version == "1.0":
        ends["%25"] = "%"
        if re.search("%(?!0[AaDd]|25)", spelled):
            raise Invalid(f"{spelled!r} isn't spelled as a path")
    path = re.sub("%0[AaDd]|%25", lambda found: ends.get(found[0].lower(), found[0]), spelled)
    if {"", ".", ".."} & set(path.split("/")):
        raise Invalid(f"{path!r} isn't safe")
    return path.encode()


def entries_of(path, content, version):
    """The paths that a manifest names, each once, with their digests."""
    entries = {}
    for line in lines_of(path, content):
        if not line.strip(BLANKS):
            continue
        found = LINE.fullmatch(line)
        if not found:
            raise Invalid(f"{path} has the line {line!r}")
        named = path_of(found[2], version)
        if named in entries:
            raise Invalid(f"{path} names {named} again")
        entries[named] = found[1].lower()
    return entries


def elements_of(files, version):
    """The labels and values of bag-info.txt; a value has its lines, each without blanks at its ends (2.2.2)."""
    elements = []
    for line in lines_of(INFO, files.get(INFO, b"")):
        if not line.strip(BLANKS):
            continue
        label, colon, value = line.partition(":")
        if line[0] in BLANKS:
            if not elements:
                raise Invalid(f"the line {line!r} goes on with no element")
            elements[-1][1].append(line.strip(BLANKS))
            continue
        if version == "0.97":
            label = label.strip(BLANKS)
        if not colon or not label or label[-1] in BLANKS or version == "1.0" and value and value[0] not in BLANKS:
            raise Invalid(f"the line {line!r} is no element")
        elements.append((label, [value.strip(BLANKS)]))
    return [(label, "\n".join(lines)) for label, lines in elements]


def is_oxum(label):
    return label.lower() == OXUM.lower()


def oxum_of(files):
    payload = payload_of(files)
    return f"{sum(map(len, payload.values()))}.{len(payload)}"


# ---- whether a bag is valid


def check_parts(folder, files):
    if not stat.S_ISDIR(os.stat(os.path.join(folder, "data")).st_mode):
        raise Invalid("there is no folder data")
    if not algorithms_of(files):
        raise Invalid("there is no payload manifest")
    for _, algorithm, path in manifests_of(files):
        if algorithm not in ALGORITHMS:
            raise Invalid(f"{path} is of an algorithm that isn't known")


def check_info(files, version):
    oxums = [value for label, value in elements_of(files, version) if is_oxum(label)]
    if len(oxums) > 1 or any(not re.fullmatch(r"[0-9]+\.[0-9]+", value) for value in oxums):
        raise Invalid("Payload-Oxum isn't one")
    if oxums and list(map(int, oxums[0].split("."))) != list(map(int, oxum_of(files).split("."))):
        raise Invalid(f"Payload-Oxum is {oxums[0]}, and the payload {oxum_of(files)}")


def check_named(entries, files, version):
    """By 1.0 each payload manifest names each payload file, and each tag manifest each payload manifest; by 0.97 a
    payload file is named by some (3)."""
    of_payload = [named for (is_tag, _, _), named in entries if not is_tag]
    fetched = [FETCHED.fullmatch(line) for line in lines_of(FETCH, files.get(FETCH, b"")) if line.strip(BLANKS)]
    if not all(fetched):
        raise Invalid("fetch.txt has a line that names nothing")
    for path in [*payload_of(files), *(path_of(found[1], version) for found in fetched)]:
        names = [path in named for named in of_payload]
        if not (all(names) if version == "1.0" else any(names)):
            raise Invalid(f"{path} is left out by a payload manifest")
    for (is_tag, _, manifest), named in entries:
        for path in map(manifest_path, algorithms_of(files)):
            if is_tag and version == "1.0" and path not in named:
                raise Invalid(f"{manifest} leaves out {path}")


def check_digests(entries, files, reads_payload):
    for (is_tag, algorithm, manifest), named in entries:
        for path, digest in named.items():
            if path.startswith(b"data/") == is_tag or is_tag_manifest(path):
                raise Invalid(f"{manifest} names {path}, which it can't")
            if path not in files:
                raise Invalid(f"{path} isn't there, and {manifest} names it")
            if (is_tag or reads_payload) and hashlib.new(algorithm, files[path]).hexdigest() != digest:
                raise Invalid(f"{path} has another digest than {manifest} says")


def is_tag_manifest(path):
    match = MANIFEST.fullmatch(path)
    return bool(match and match[1])


def why_invalid(folder, reads_payload=True):
    """The first reason why a folder isn't a valid bag, where the payload isn't read but for its digests; None of one
    that is."""
    try:
        files = held(folder)
        version = version_of(files)
        check_parts(os.fsdecode(folder), files)
        check_info(files, version)
        entries = [(one, entries_of(one[2], files[one[2]], version)) for one in manifests_of(files)]
        check_named(entries, files, version)
        check_digests(entries, files, reads_payload)
    except (Invalid, OSError) as error:
        return str(error)
    return None


def is_valid(folder):
    return why_invalid(folder) is None


# ---- the renewed bag


def same(label, other):
    """Whether two labels are the same: the case of ASCII letters doesn't count."""
    return label.encode().lower() == other.encode().lower()


def has(elements, label):
    return any(same(label, other) for other, _ in elements)


def is_bad_request(options):
    """Whether an element can't be written, or would come out otherwise if it were asked for again: one that is appended
    with a label that is set or unset."""
    given, others = (*options.set, *options.append), (*options.unset, *(label for label, _ in options.set))
    return any(is_bad(*element) for element in given) or any(has(options.append, label) for label in others)


def is_bad(label, value):
    """Whether an element can't be written, or is one that is computed."""
    lines = value.split("\n")
    is_bad_label = not label or re.search("[:\n\r]", label) or label.strip(BLANKS) != label or label[0] == "\ufeff"
    is_bad_value = "\r" in value or any(line.strip(BLANKS) != line for line in lines) or "" in lines[1:]
    return is_bad_label or is_oxum(label) or is_bad_value


def with_set(elements, given):
    """All that are given of a label, in the place of the first element with it; the others with it go."""
    made = []
    for place, (label, value) in enumerate(elements):
        if not has(given, label):
            made.append((label, value))
        elif not has(elements[:place], label):
            made += [one for one in given if same(one[0], label)]
    return made


def stands(elements, element):
    return any(same(element[0], label) and element[1] == value for label, value in elements)


def renewed_elements(old, options, oxum):
    """Unset is what isn't set; set ones with new labels stand before Payload-Oxum, those of a label together, and after
    them the appended ones that don't stand there yet."""
    kept = [one for one in old if has(options.set, one[0]) or not any(same(one[0], label) for label in options.unset)]
    made = with_set(kept, options.set)
    new = [one for one in with_set(options.set, options.set) if not has(old, one[0])]
    appended = [one for one in options.append if not stands([*made, *new], one)]
    place = next((place for place, (label, _) in enumerate(made) if is_oxum(label)), len(made))
    after = [one for one in made[place:] if not is_oxum(one[0])]
    return [*made[:place], *new, *appended, (OXUM, oxum), *after]


def info_of(elements):
    lines = [f"{label}: {value}".replace("\n", "\n\t") + "\n" for label, value in elements]
    return "".join(lines).encode()


def spelled(path, version):
    """How a manifest spells a path: the ends of lines escaped, and by 1.0 the percent sign too (2.1.3)."""
    percent = path.replace(b"%", b"%25") if version == "1.0" else path
    return percent.replace(b"\n", b"%0A").replace(b"\r", b"%0D")


def manifest_of(algorithm, files, version):
    text = b""
    for path, content in sorted(files.items()):
        text += hashlib.new(algorithm, content).hexdigest().encode() + b"  " + spelled(path, version) + b"\n"
    return text


def becomes_1_0(files, options):
    """Whether a bag of 0.97 becomes one of 1.0, of which nothing but the payload and other tag files stays as it is."""
    return options.to_1_0 and known_version(files) == "0.97"


def new_version(files, options):
    """The version of the renewed bag."""
    return "1.0" if options.to_1_0 else known_version(files)


def algorithms_left(files, options):
    return [name for name in ALGORITHMS if name in {*algorithms_of(files), *options.add} and name not in options.drop]


def field(path):
    """A path as a field of a line."""
    return "".join(chr(c) if 0x21 <= c <= 0x7E and c != 0x25 else f"%{c:02X}" for c in path) or "-"


def reads_payload(files, options):
    """Whether the payload is read: an algorithm is added, all manifests are written anew, or one that is there is dropped
    and not unchecked."""
    there = {*algorithms_of(files)}
    is_compared = not (options.unchecked or there.isdisjoint(options.drop))
    return is_compared or becomes_1_0(files, options) or not {*algorithms_left(files, options)} <= there


def paths_named(files, manifests):
    """The paths that these manifests name; all where one of them doesn't read, since then that isn't known."""
    try:
        return {path for one in manifests for path in entries_of(one, files[one], known_version(files))}
    except Invalid:
        return {*files}


def is_named(files, path):
    """Whether a tag manifest names a path."""
    return path in paths_named(files, [manifest for is_tag, _, manifest in manifests_of(files) if is_tag])


def unnameable(files, options):
    """The paths, in order, that no new manifest can name: its reader would drop a blank or a star at the front, and by
    0.97 take `%0A` or `%0D` for the end of a line. On the way from 0.97 to 1.0, which spell a `%` otherwise, one with it."""
    found = rb"[ \t*]|.*%" if becomes_1_0(files, options) else rb"[ \t*]"
    if new_version(files, options) == "0.97":
        found += rb"|.*%0[AaDd]"
    return [path for path in sorted(files) if re.match(found, path, re.S)]


def outdated(files):
    """The tag manifests, in order, that stay as they are, since no manifest has the name of their algorithm."""
    return [path for path in sorted(files) if OTHER.fullmatch(path) and not MANIFEST.fullmatch(path)]


def unlisted(files, options):
    """The payload files, in order, that by 0.97 only manifests name that are dropped, where none is written."""
    left = [*map(manifest_path, algorithms_left(files, options))]
    if new_version(files, options) != "0.97" or not {*left} <= {*files}:
        return []
    return sorted({*payload_of(files)} - paths_named(files, left))


def refusals(folder, files, options):
    """Each reason why the bag isn't renewed, as the line says it; `fault` of one with a fault. Any of them is right."""
    if is_bad_request(options):
        yield "bad value"
    if not algorithms_left(files, options):
        yield "no algorithm"
    if becomes_1_0(files, options) and FETCH in files:
        yield "fetch.txt"
    for name in (BEGUN, DECLARATION, INFO, *map(manifest_path, ALGORITHMS), *map(tag_manifest_path, ALGORITHMS)):
        if os.path.isdir(os.path.join(os.fsencode(folder), name)) or name == BEGUN and is_named(files, name):
            yield f"{name.decode()} in the way"
    yield from (f"{field(path)} would be out of date" for path in outdated(files)[:1])
    yield from (f"{field(path)} can't be named" for path in unnameable(files, options)[:1])
    yield from (f"{field(path)} would be in no manifest" for path in unlisted(files, options)[:1])
    if why_invalid(folder, reads_payload(files, options)):
        yield "fault"


def owned_as(path, files):
    """The file whose mode, owner and group one that is put has: that in whose place it comes, else bagit.txt."""
    return path if path in files else DECLARATION


class Renewed(NamedTuple):
    files: dict
    put: set  # the paths of those that are written

    def untouched(self, files):
        """The paths at which the very file stays: those of the payload, and of tag files that aren't written."""
        return {path for path in files if path in self.files and path not in self.put}


def renewed(folder, options):
    """The renewed bag."""
    try:
        files = held(folder)
        reasons = [*refusals(folder, files, options)]
    except (Invalid, OSError):
        reasons = ["read"]
    if reasons:
        raise Refused(*reasons)
    keeps_nothing, version = becomes_1_0(files, options), new_version(files, options)
    payload, algorithms = payload_of(files), algorithms_left(files, options)
    added = [name for name in algorithms if keeps_nothing or manifest_path(name) not in files]
    put = {manifest_path(name): manifest_of(name, payload, version) for name in added}
    if keeps_nothing:
        put[DECLARATION] = DECLARED
    if keeps_nothing or options.has_elements():
        elements = elements_of(files, version_of(files))
        put[INFO] = info_of(renewed_elements(elements, options, oxum_of(files)))
    gone = {BEGUN, *map(manifest_path, {*ALGORITHMS} - {*algorithms})}
    made = {path: content for path, content in files.items() if path not in gone and not is_tag_manifest(path)}
    made.update(put)
    named = {path: content for path, content in made.items() if path not in payload}
    tag_manifests = {tag_manifest_path(name): manifest_of(name, named, version) for name in algorithms}
    return Renewed({**made, **tag_manifests}, {*put, *tag_manifests})


def options_of(words):
    """The options of a command line, and its directories."""
    parser = ArgumentParser(allow_abbrev=False)
    for name in ("add", "drop"):
        parser.add_argument(f"--{name}", type=lambda text: tuple(text.split(",")), default=())
    parser.add_argument("--unset", action="append", default=[])
    for name in ("set", "append"):
        parser.add_argument(f"--{name}", action="append", default=[], type=pair)
    parser.add_argument("--unchecked", action="store_true")
    parser.add_argument("--to-1.0", action="store_true", dest="to_1_0")
    parser.add_argument("directories", nargs="*")
    found = parser.parse_args(words)
    given = {name: tuple(getattr(found, name)) for name in ("add", "drop", "unset", "set", "append")}
    return Options(**given, unchecked=found.unchecked, to_1_0=found.to_1_0), found.directories


def pair(text):
    label, equals, value = text.partition("=")
    if not equals:
        raise ValueError("takes LABEL=VALUE")
    return label, value.strip(BLANKS)


def write(files, folder):
    for path, content in files.items():
        at = os.path.join(os.fsencode(folder), path)
        os.makedirs(os.path.dirname(at), exist_ok=True)
        with open(at, "xb") as file:
            file.write(content)


def main():
    if sys.argv[1] == "valid":
        reasons = [why_invalid(folder) for folder in sys.argv[2:]]
        print(*(f"{folder}: {reason or 'valid'}" for folder, reason in zip(sys.argv[2:], reasons)), sep="\n")
        sys.exit(any(reasons))
    options, (folder, new) = options_of(sys.argv[2:])
    try:
        write(renewed(folder, options).files, new)
    except Refused as refused:
        sys.exit(f"{folder} not renewed: {' or '.join(refused.args)}")


if __name__ == "__main__":
    main()
