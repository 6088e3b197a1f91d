"""Elements of bag-info.txt as `Bag.info` has them: each label with its value,
or with a list of them; and the words by which the programs write them."""
import re
from datetime import date
from typing import Any, Dict, Iterable, List, Mapping, Optional, Tuple

from .errors import BagError
from .messages import printable
from .tags import BLANKS, Element

LABELS = (
    "Source-Organization",
    "Organization-Address",
    "Contact-Name",
    "Contact-Phone",
    "Contact-Email",
    "External-Description",
    "External-Identifier",
    "Bag-Size",
    "Bag-Group-Identifier",
    "Bag-Count",
    "Internal-Sender-Identifier",
    "Internal-Sender-Description",
    "BagIt-Profile-Identifier",
    "Bagging-Date",
)
"""The labels that `bagit` has an option for."""

Info = Dict[str, Any]


def info_of(elements: Iterable[Element]) -> Info:
    """The values by their labels: a text, or a list of several."""
    info: Info = {}
    for label, value in elements:
        if label not in info:
            info[label] = value
        elif isinstance(info[label], list):
            info[label].append(value)
        else:
            info[label] = [info[label], value]
    return info


def elements_in(info: Mapping[str, Any]) -> List[Element]:
    """The elements that such values are, or a BagError."""
    elements = []
    for label, given in info.items():
        values = given if isinstance(given, (list, tuple)) else [given]
        elements += [(label, text_of(label, value)) for value in values]
    return elements


def refresh(info: Info, elements: Iterable[Element]) -> None:
    """Makes the values those of elements. What says the same is left."""
    found = info_of(elements)
    for label in [it for it in info if it not in found]:
        del info[label]
    for label, value in found.items():
        old = elements_in({label: info.get(label, [])})
        if old != elements_in({label: value}):
            info[label] = value


def text_of(label: object, value: object) -> str:
    """The text of a value: of a number or a date, what `str` gives."""
    if isinstance(label, str) and isinstance(value, (str, int, float, date)):
        return str(value)
    raise BagError(
        f"{printable(str(label))} can't be written: its value is no text,"
        " number or date, nor a list of them"
    )


def key_of(label: str) -> bytes:
    """What labels have in common that differ in the case of ASCII letters."""
    return label.encode("utf-8", "surrogatepass").lower()


def is_oxum(label: str) -> bool:
    """Whether a label is Payload-Oxum, which is computed."""
    return key_of(label) == b"payload-oxum"


def why_not(label: str, value: str) -> Optional[str]:
    """Why `bagit-renew` can't write an element just as it is."""
    lines = value.split("\n")
    if is_oxum(label):
        return "it is computed"
    if re.search("^$|^[ \t\ufeff]|[:=\r\n\0]|[ \t]$", label):
        return "it isn't a label"
    if re.search("[\r\0]", value):
        return "its value has a carriage return or a NUL"
    if any(line != line.strip(BLANKS) for line in lines):
        return "a line of its value has blanks at its ends"
    if "" in lines[1:]:
        return "its value has an empty line"
    if re.search("[\ud800-\udfff]", label + value):
        return "it isn't Unicode text"
    return None


def refuse_unwritable(label: str, value: str) -> None:
    """Raises a BagError of what `bagit-renew` can't write just as it is."""
    why = why_not(label, value)
    if why is not None:
        raise BagError(f"{printable(label)} can't be written: {why}")


def by_key(elements: Iterable[Element]) -> Dict[bytes, List[Element]]:
    """The elements of each label, in their order."""
    groups: Dict[bytes, List[Element]] = {}
    for label, value in elements:
        groups.setdefault(key_of(label), []).append((label, value))
    return groups


def words_of(old: Iterable[Element], new: Iterable[Element]) -> List[str]:
    """The words by which `bagit-renew` makes new elements of old ones: those
    of a label that isn't altered are left as they are."""
    before, after = by_key(old), by_key(new)
    words = []
    for key, elements in before.items():
        label = elements[0][0]
        if key not in after:
            if is_oxum(label):
                raise BagError(f"{label} can't be removed: it is computed")
            words.append(f"--unset={label}")
    for key, elements in after.items():
        if elements != before.get(key):
            for label, value in elements:
                refuse_unwritable(label, value)
                words.append(f"--set={label}={value}")
    return words


def options_of(
    elements: Iterable[Element],
) -> Tuple[List[str], List[Element]]:
    """The words by which `bagit` writes elements while it makes a bag, and
    the elements that it has none for. Raises a BagError where one can't be
    written at all."""
    words, others = [], []
    for group in by_key(elements).values():
        for label, value in group:
            refuse_unwritable(label, value)
        label, value = group[0]
        if len(group) == 1 and label in LABELS and "\n" not in value:
            words.append(f"--{label.lower()}={value}")
        else:
            others += group
    return words, others
