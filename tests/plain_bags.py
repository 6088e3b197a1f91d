"""Draws bags and profiles: bags of both versions with most faults that a bag can have, and one of two thousand elements under the rules
of five hundred labels. tests/plain.py has them checked.
"""
import hashlib
import unicodedata

from plain_faults import Bag
from plain_tags import ALGORITHMS, DECLARATION, FETCH, METADATA, is_payload

# Paths of files: many have the normal form of another, or differ from another by case alone.
NAMES = ("a.txt", "about/x", "data/A\u030a", "data/K", "data/k", "data/a", "data/a-b", "data/a.b", "data/b/c", "data/b0", "data/e\u0301",
         "data/s\u0307\u0323", "data/s\u0323\u0307", "data/x/e\u0301", "data/x/\u00e9", "data/\u00c5", "data/\u00e9", "data/\u1100\u1161",
         "data/\u1e69", "data/\u212a", "data/\u212b", "data/\uac00", "data/%", "data/%25", "data/\n", "data/c d ", "data/*e", "data/data/a",
         "e\u0301.txt", "notes.txt", "z", "\u00e9.txt", "%41", "Data/a", "data2/a", "manifest-SHA256.txt", "about/manifest-md5.txt",
         "tagmanifest-.txt")
CONTENTS = (b"", b"a", b"abc", b"\xff" * 100)
UNSUPPORTED = ("b2", "sha3256")
LABELS = ("Contact-Name", "contact-name", "Bag-Size", "Bag-Count", "BagIt-Profile-Identifier", "Ort")
OXUMS = ("Payload-Oxum", "payload-oxum")
VALUES = ("Ann", "ann", "", "1 of 1", "on two\n lines", "urn:p", "urn:q", "3.1", "7.5", "0.0", "x.1")
ODD_LINES = ("# made by hand", "", " ", "\t", "0  data/a", "x", " data/a", "\u00a0")
ODD_PATHS = ("../x", "data/../x", "/etc/x", "data/", "data", "data/%41", "data/%2", "data//a", "bagit.txt", "tagmanifest-md5.txt",
             "data/gone", "gone", "data/E\u0301", "./data/a", "")
NOT_UTF8 = b"\xc3\x28\n"
PATTERNS = ("*", "*.txt", "about/*", "*a*", "", "z", "*\u00e9*", "**x", "manifest-*", "a*t", "z*z", "*tes*es.txt")


# ---- bags; `odd` is how likely each part of a bag isn't as it has to be


def spelled(draw, path, version):
    """A path as a manifest or fetch.txt of this version has it."""
    escapes = [("\n", "%0A" if draw.random() < 0.5 else "%0a"), ("\r", "%0D")]
    for character, escape in [*([("%", "%25")] if version != "0.97" else []), *escapes]:
        path = path.replace(character, escape)
    return path


def chosen(draw, texts, share):
    """Those of some texts that a share of them is drawn for."""
    return [text for text in texts if draw.random() < share]


def as_file(draw, lines, odd):
    """The bytes of these lines in any order, in rare cases with bytes that aren't UTF-8."""
    end = draw.choice(("\n", "\n", "\n", "\r\n", "\r"))
    text = draw.choice(("", "", "", "\ufeff")) + end.join(draw.sample(lines, len(lines))) + (end if draw.random() < 0.8 else "")
    return text.encode() + (NOT_UTF8 if draw.random() < odd / 5 else b"")


def declaration(draw, version, odd):
    """The bytes of bagit.txt."""
    encoding = draw.choice(("ISO-8859-1", "UTF 8", "utf8")) if draw.random() < odd else draw.choice(("UTF-8", "UTF-8", "utf-8"))
    text = "\ufeff" * (draw.random() < odd) + f"BagIt-Version: {version}\nTag-File-Character-Encoding: {encoding}\n"
    text += draw.choice(("\n", "x")) if draw.random() < odd else ""
    return text.encode() + (NOT_UTF8 if draw.random() < odd / 5 else b"")


def metadata(draw, files, odd):
    """The bytes of bag-info.txt."""
    payload = [content for path, content in files.items() if is_payload(path)]
    oxum = f"{draw.choice(('', '0'))}{sum(map(len, payload))}.{len(payload)}"
    labels, colons = (LABELS + OXUMS, (": ", ":\t", " :", ":")) if odd else (LABELS, (": ", ":\t"))
    lines = [draw.choice(labels) + draw.choice(colons) + draw.choice(VALUES) for _ in range(draw.randrange(6))]
    lines += [f"Payload-Oxum: {oxum}"] * (draw.random() < 0.8) + ["BagIt-Profile-Identifier: urn:p"] * (draw.random() < 0.5)
    return as_file(draw, lines + chosen(draw, (" more", "x", "\t", ": y"), odd / 2), odd)


def fetch_list(draw, files, version, odd):
    """The bytes of fetch.txt, which names files that are there."""
    paths = [spelled(draw, path, version) for path in chosen(draw, [*filter(is_payload, files)], 0.3)]
    paths += chosen(draw, [*NAMES, *ODD_PATHS], odd / 3)
    starts = ("http://h/a - ", "é  7 ", "http://h/b\t07\t./", "u 00 ")
    lines = [draw.choice(starts) + path for path in paths]
    return as_file(draw, lines + chosen(draw, ("http://h", "http://h 7", " http://h - data/a", "http://h -1 data/a", "  "), odd / 3), odd)


def manifest(draw, algorithm, files, names, version, odd):
    """A manifest's text: in an odd one some names have the checksum of other contents, and some are named again."""
    lines = []
    for path in names:
        content = draw.choice(CONTENTS) if path not in files or draw.random() < odd else files[path]
        digest = hashlib.new(algorithm, content).hexdigest()
        digest = draw.choice((digest, digest, digest, digest.upper(), digest[:9].upper() + digest[9:]))
        mark = draw.choice(("  ", "  ", " *", "\t", " \t./", " *./"))
        lines += [digest + mark + spelled(draw, path, version)] * (2 if draw.random() < odd / 5 else 1)
    if draw.random() < odd:
        digest = hashlib.new(algorithm, b"").hexdigest()
        lines += [f"{digest[draw.choice((0, 0, 0, 1)):]}  {path}" for path in draw.sample(ODD_PATHS, 3)] + draw.sample(ODD_LINES, 2)
    return as_file(draw, lines, odd)


def add_manifests(draw, files, version, odd):
    """Adds payload manifests, which name most payload files, and tag manifests, which name most of the others."""
    share = draw.choice((0.5, 0.9, 1)) if odd else 1
    algorithms = (*ALGORITHMS, *UNSUPPORTED) if odd else tuple(ALGORITHMS)
    for algorithm in draw.sample(algorithms, draw.choice((0, 1, 1, 2, 3) if odd else (1, 2))):
        names = chosen(draw, [path for path in NAMES if is_payload(path) and (path in files or draw.random() < odd / 5)], share)
        text = manifest(draw, algorithm if algorithm in ALGORITHMS else "md5", files, names, version, odd)
        files[f"manifest-{algorithm}.txt"] = text
    for algorithm in draw.sample(algorithms, draw.choice((0, 0, 1, 2))):
        tags = [path for path in [*files, *chosen(draw, NAMES[:2], odd)] if not is_payload(path) and not path.startswith("tag")]
        text = manifest(draw, algorithm if algorithm in ALGORITHMS else "md5", files, chosen(draw, tags, share), version, odd)
        files[f"tagmanifest-{algorithm}.txt"] = text


def bag(draw):
    """A bag with some of the names: one of four is as it has to be; of the others some have directories where files should be."""
    odd = draw.choice((0, 0.05, 0.2, 0.5))
    version = draw.choice(("0.96", "1.1")) if draw.random() < odd / 2 else draw.choice(("1.0", "0.97"))
    kept = chosen(draw, NAMES, draw.choice((0.1, 0.5, 0.9)))
    if draw.random() < 0.1:
        kept = [path for path in kept if not is_payload(path)]
    files = {path: draw.choice(CONTENTS) for path in kept}
    files.update({DECLARATION: declaration(draw, version, odd)} if draw.random() >= odd / 5 else {})
    files.update({METADATA: metadata(draw, files, odd)} if draw.random() < 0.7 else {})
    files.update({FETCH: fetch_list(draw, files, version, odd)} if draw.random() < 0.4 else {})
    add_manifests(draw, files, version, odd)
    folders = chosen(draw, ("empty/below", "data/none/here"), 0.3) + ["data"] * (not odd or draw.random() < 0.5)
    for path in chosen(draw, [*files], odd / 30):
        del files[path]
        folders.append(path)
    if not any(f"{path}/".startswith("data/") for path in [*folders, *files]) and draw.random() < 0.5:
        files["data"] = b"a"
    return Bag(files, tuple(folders))


def normal_forms():
    """How many of the names have the normal form of another, so that a check can find that they clash."""
    forms = [unicodedata.normalize("NFC", path) for path in NAMES]
    return sum(forms.count(form) > 1 for form in forms)


# ---- profiles


def profile(draw):
    """A profile that asks for something by some of the keys."""
    algorithms, flags = (*ALGORITHMS, *UNSUPPORTED, "MD5"), (True, False)
    labels = draw.sample((*LABELS, *OXUMS, "Absent"), 4)
    rules = {label: {"required": draw.choice(flags), "repeatable": draw.choice(flags)} for label in labels}
    for rule in rules.values():
        rule.update({"values": draw.sample(VALUES, draw.randrange(4))} if draw.random() < 0.5 else {})
    asked = {"Bag-Info": rules, "Allow-Fetch.txt": draw.choice(flags), "Serialization": draw.choice(("forbidden", "required", "optional"))}
    for kind in ("Manifests", "Tag-Manifests"):
        asked[f"{kind}-Required"] = draw.sample(algorithms, draw.randrange(3))
        asked[f"{kind}-Allowed"] = draw.sample(algorithms, draw.randrange(8))
    asked["Tag-Files-Required"] = draw.sample((*NAMES, *ODD_PATHS, "empty", DECLARATION), 3)
    asked["Tag-Files-Allowed"] = draw.sample(PATTERNS, draw.randrange(4))
    asked["Accept-BagIt-Version"] = draw.sample(("1.0", "0.97", "0.96", "1.1"), draw.randrange(4))
    identified = {"BagIt-Profile-Info": {"BagIt-Profile-Identifier": draw.choice(("urn:p", "urn:p", "urn:q", "on two\nlines"))}}
    return {**identified, **{key: asked[key] for key in chosen(draw, asked, 0.6)}}


# ---- the rules of labels


def ruled(draw):
    """Rules of five hundred labels, two for each of 250 numbers, which differ by case alone."""
    rules = {"A": {}}
    for number in range(1000, 1250):
        for spelling in ("Label-", "label-"):
            values = chosen(draw, ("None", "none", "one", "two of two"), 0.5)
            rule = {"required": draw.choice((True, False)), "repeatable": draw.choice((True, False)), "values": values and ["x", *values]}
            rules[f"{spelling}{number}"] = rule
    return {"BagIt-Profile-Info": {"BagIt-Profile-Identifier": "urn:p"}, "Bag-Info": rules}


def elements(draw, version):
    """A bag of two thousand elements, whose labels are of 600 numbers."""
    lines = ["BagIt-Profile-Identifier: urn:p"]
    for _ in range(2000):
        label, value = draw.choice(("LABEL-", "Label-", "label-")), draw.choice(("None", "none", "one", "two of two"))
        lines.append(f"{label}{draw.randrange(1000, 1600)}: {value}")
    text = f"BagIt-Version: {version}\nTag-File-Character-Encoding: UTF-8\n"
    return Bag({DECLARATION: text.encode(), METADATA: ("\n".join(lines) + "\n").encode()})
