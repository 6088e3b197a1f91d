"""Generates small bags, each about one of its tag files: all texts that are put together from some parts, and a few that are long, by the
rules of both versions. tests/plain.py has them checked.
"""
import hashlib
import itertools

from plain_faults import Bag
from plain_tags import ALGORITHMS, DECLARATION, FETCH, METADATA

VERSIONS = ("1.0", "0.97")
ENDS = ("\n", "\r", "\r\n")
MARK = "\ufeff"
MD5 = {text: hashlib.md5(text.encode()).hexdigest() for text in ("", "a", "b")}
NOT_UTF8 = (b"\xff", b"\xc3", b"\xc0\xaf", b"\xed\xa0\x80", b"\xf4\x90\x80\x80", b"\xe2\x28\xa1")

# What a line of each sort in bag-info.txt is, and what lines are put together from.
SORTS = ("", " \t", "a: b", "c:", "d :e", "f", " g: h ", "\ti")
METADATA_PARTS = (("a", "a ", "é", "", "\u00a0", "a b"), (":", "::", "", "\t:"), ("", " ", "b", " b: c\t", "\tb", "\u00a0"))
LABELS = ("", "A", "a ", "a b", "b", "c", "d", "d ", "f", "g", " g", "i", "\ti", "é", "\u00a0", "\u00a0 ", MARK + "a")

# What may stand before a path in a line of fetch.txt, part by part, and what at the line's end.
FETCH_PARTS = (("", " "), ("u:v", "é", ""), (" ", "\t  ", ""), ("-", "07", "-1", "x", ""), (" ", "\t", ""))
FETCH_PATHS = ("data/a", "./data/b c ", "././data/a", "data/%25%0a%0D/%0A.%0d", "data/%41", "data/%2", "./%%25", "../x", "data/./x",
               "data//x", "data", "bagit.txt", "./", "", "/data/a", "data/a/", "*data/a", "Data/a", ".", "data/é")
SPELLED = ("%", "0", "a", "A", "d", "25", "é", "")  # parts of spellings

# The same of a manifest.
SUMS = (MD5["a"], MD5["b"].upper(), MD5[""][:-1], MD5[""] + "0", "g" + MD5["a"][1:], "\u0661" + MD5["a"][1:], "a", "")
GAPS = ("", " ", "  ", "\t", " \t ", "\u00a0")
PREFIXES = ("", "*", "./", "*./", "./*", "**", "././", "\\")
NAMED = ("data/a", "data/b c ", "data/%25%0a%0D", "data/%41", "data/%2", "%", "/data/a", "../x", "data/./x", "data//x", "data", "data/", "",
         ".", "bagit.txt", "manifest-md5.txt", "tagmanifest-sha3.txt", "tagmanifest-SHA1.txt", "x/tagmanifest-md5.txt", "Data/a", "é")


def declared(version, more=None):
    """A bag that declares a version, with an empty payload unless there are more files."""
    text = f"BagIt-Version: {version}\nTag-File-Character-Encoding: UTF-8\n"
    return Bag({DECLARATION: text.encode(), **(more or {})}, ("data",))


def combined(*parts):
    """Each text that is one of the first parts, one of the second after it, and so on."""
    return ["".join(chosen) for chosen in itertools.product(*parts)]


def ended(lines, first_end, has_last=True):
    """These lines, each with an end, of which the first is that of this place; the last line may have none."""
    texts = [line + ENDS[(place + first_end) % 3] for place, line in enumerate(lines)]
    return ("".join(texts) if has_last or not lines else "".join(texts[:-1]) + lines[-1]).encode()


# ---- bagit.txt


def declarations():
    """Bags of all short texts of bagit.txt, each with a line of metadata that 0.97 alone allows."""
    label = "BagIt-Version: "
    versions = [label + version for version in ("1.0", "0.97", "0.96", "01.0", " 1.0", "1.0 ", "1", "1.\u0660")]
    versions += ["BagIt-Version:1.0", "bagit-version: 1.0", "", " "]
    label = "Tag-File-Character-Encoding: "
    encodings = [label + encoding for encoding in ("UTF-8", "utf-8", "UTF8", "UTF 8", "")]
    encodings += ["Tag-File-Character-Encoding:\tUTF-8", versions[0], ""]
    texts = combined(("", MARK, MARK + MARK), versions, ("\n", "\r", "\r\n", "\n\n", ""), encodings, ("", "\n", "\r\nx", "\n\n"))
    contents = [text.encode() for text in texts]
    contents += [texts[0].encode() + more for more in NOT_UTF8] + [more + texts[0].encode() for more in NOT_UTF8]
    return [Bag({DECLARATION: content, METADATA: b"a :b\n"}, ("data",)) for content in contents]


# ---- bag-info.txt


def metadata_texts():
    """All texts of four lines of each sort, lines put together from parts among others, byte order marks, and what isn't UTF-8."""
    texts = []
    for place, lines in enumerate(itertools.product(SORTS, repeat=4)):
        texts.append(ended(lines, place % 3, place % 2))
    for place, (line, sort) in enumerate(itertools.product(combined(*METADATA_PARTS), SORTS)):
        texts.append(ended((line, sort, line, "\ti"), place % 3, place % 2))
    for marks, line in itertools.product((MARK, MARK + MARK), (*SORTS, *combined(*METADATA_PARTS))):
        texts.append((marks + line).encode())
    return texts + [line.encode() + more + after for line in SORTS for more in NOT_UTF8 for after in (b"", b"\na: b")]


def long_metadata():
    """Five thousand elements of two lines, each with a line after it that is none, and a value of four thousand parts."""
    lines = []
    for number in range(5000):
        lines += [f"a {number}: b {number}", f"\tc {number} ", f"d {number}"]
    lines += ["a: part"] + ["  part ", ""] * 4000 + ["b", " c"]
    return [ended(lines, first_end) for first_end in range(3)]


def metadata():
    """Bags of all these texts of bag-info.txt, of both versions."""
    return [declared(version, {METADATA: text}) for text in metadata_texts() + long_metadata() for version in VERSIONS]


def oxums():
    """Bags of all short values of Payload-Oxum, and of several, with a payload of three bytes in two files."""
    numbers = ("3", "003", "2", "0", "", str(2**64 - 1), str(2**64), "\u0663", "3e0")
    values = combined(("", "+", "-", " "), numbers, (".", "", ",", " .", ".."), ("2", "02", "3", ""), ("", " ", ".", "\n 2"))
    lines = [f"Payload-Oxum: {value}\n" for value in values]
    few = ("Payload-Oxum: 3.2\n", "payload-OXUM: 1.1\n", "Payload-Oxum :3.1\n", "Payload-Oxum:\n", "Payload-Oxun: 3.1\n", "x\n")
    lines += combined(few, few, few)
    payload = {"data/a": b"abc", "data/b/c": b"", "data2": b"none of it", "x/data/a": b"nor this"}
    return [declared(version, {METADATA: line.encode(), **payload}) for line in lines for version in VERSIONS]


# ---- fetch.txt


def spellings():
    """All paths of up to five parts, some thousands at a time."""
    texts = sorted(set(combined(*[SPELLED] * 5)))
    return [texts[place : place + 4000] for place in range(0, len(texts), 4000)]


def fetch_lists():
    """Bags of lines of fetch.txt put together from parts, of all short spellings of paths, of thousands of lines, and of a long path."""
    empty, naming, heads = {"manifest-sha1.txt": b""}, {"manifest-md5.txt": f"{MD5['a']}  data/a\n".encode()}, combined(*FETCH_PARTS)
    some = [ended([head + path for path in FETCH_PATHS], place % 3, place % 2) for place, head in enumerate(heads)]
    texts = some + [(mark + head + FETCH_PATHS[0]).encode() for mark in (MARK, MARK + MARK) for head in heads[::2]]
    texts += [head.encode() + more for head in heads[::30] for more in NOT_UTF8]
    texts += [ended([f"u - data/{spelling}" for spelling in thousands], 0) for thousands in spellings()]
    escapes = ["%41" if number % 10 == 0 else "%25" for number in range(1, 2001)]
    texts.append(ended([f"http://a.example/{number} {number} ./data/{escape}{number}" for number, escape in enumerate(escapes, 1)], 0))
    texts += [ended([f"u - data/{part * 100_000}"], 0) for part in ("%25", "%", "%0A", "é")]
    bags = [declared(version, {FETCH: text, **empty}) for text in texts for version in VERSIONS]
    return bags + [declared(version, {FETCH: text, **empty, **naming}) for text in some for version in VERSIONS]


# ---- manifests


def payload():
    """Files that lines of manifests may name, by the rules of one version or of both."""
    return {"data/a": b"a", "data/b c ": b"b", "data/%\n\r": b"a", "data/%25\n\r": b"b", "\u00e9": b""}


def manifest_texts():
    """Lines of manifests put together from parts, each head with all paths; with byte order marks, other ends, and what isn't UTF-8."""
    heads = combined(SUMS, GAPS, PREFIXES)
    texts = [ended([head + name for name in NAMED], place % 3, place % 2) for place, head in enumerate(heads)]
    line = f"{MD5['a']}  data/a"
    between = ("", " ", "\n", "\r", "\r\n", "\n\r", "\r\r\n", " \t\n", "\n \n", "\v", "\x00", "\u2028")
    starts = ("", MARK, MARK + MARK, " ", "\n", "# x\n")
    texts += [text.encode() for text in combined(starts, (line,), between, ("", line, "x"), ("", "\n"))]
    texts += [line.encode() + more + after for more in NOT_UTF8 for after in (b"", b"\n", b"\n" + line.encode())]
    return texts + [more + line.encode() for more in NOT_UTF8]


def length_texts():
    """For each algorithm lines with as many hex digits as each, and with one more or less."""
    lengths = [length + more for length in ALGORITHMS.values() for more in (-1, 0, 1)]
    return ended([f"{'aB3' * length}"[:length] + f" data/{length}" for length in lengths], 0)


def long_manifests():
    """Two thousand lines, of which each tenth has a bad escape and each third names a file again; all short spellings; a long path."""
    escapes = ["%41" if number % 10 == 0 else "%25" for number in range(2000)]
    texts = [ended([f"{MD5['b']}  data/{escape}{number - number % 3}" for number, escape in enumerate(escapes)], 0)]
    texts += [ended([f"{MD5['']} *data/{spelling}" for spelling in thousands], 0) for thousands in spellings()]
    return texts + [ended([f"{MD5['']}  data/{part * 100_000}"], 0) for part in ("%25", "%", "%0D", "é")]


def manifests():
    """Bags of these texts, as a payload manifest and as a tag manifest, of both versions."""
    bags = []
    for version in VERSIONS:
        bags += [declared(version, {"manifest-md5.txt": text, **payload()}) for text in manifest_texts()]
        bags += [declared(version, {"tagmanifest-md5.txt": text, "manifest-sha1.txt": b"", **payload()}) for text in manifest_texts()]
        bags += [declared(version, {"manifest-md5.txt": text}) for text in long_manifests()]
        bags += [declared(version, {f"manifest-{algorithm}.txt": length_texts()}) for algorithm in ALGORITHMS]
        bags += [declared(version, {f"tagmanifest-{algorithm}.txt": length_texts()}) for algorithm in ALGORITHMS]
    return bags
