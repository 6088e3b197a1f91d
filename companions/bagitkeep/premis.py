"""What happened to a bag, as PREMIS 3 has it."""
import json
import xml.etree.ElementTree as xml
from typing import List

from .register import Row

PREMIS = "http://www.loc.gov/premis/v3"
XSI = "http://www.w3.org/2001/XMLSchema-instance"
TYPES = {
    "adopted": "ingestion",
    "found": "fixity check",
    "gone": "fixity check",
    "accepted": "fixity check",
    "moved": "replication",
    "retired": "deaccession",
    "known": "appraisal",
    "lapsed": "appraisal",
    "received": "transfer",
}
"""The type of an event, of PREMIS's own list."""


def add(parent: xml.Element, name: str, text: str = "") -> xml.Element:
    element = xml.SubElement(parent, f"{{{PREMIS}}}{name}")
    element.text = text or None
    return element


def identify(parent: xml.Element, name: str, kind: str, value: str) -> None:
    """Says by what something is known."""
    identifier = add(parent, f"{name}Identifier")
    add(identifier, f"{name}IdentifierType", kind)
    add(identifier, f"{name}IdentifierValue", value)


def add_event(root: xml.Element, row: Row, bag: str) -> None:
    """Adds an event of a bag."""
    data = json.loads(row["data"])
    event = add(root, "event")
    identify(event, "event", "register", str(row["id"]))
    add(event, "eventType", TYPES.get(row["kind"], row["kind"]))
    add(event, "eventDateTime", row["at"])
    detail = add(event, "eventDetailInformation")
    says = json.dumps(data, sort_keys=True)
    add(detail, "eventDetail", f"{row['kind']} {says}")
    if row["kind"] in ("adopted", "accepted", "found"):
        outcome = add(event, "eventOutcomeInformation")
        is_bad = row["kind"] == "found"
        add(outcome, "eventOutcome", "fail" if is_bad else "pass")
    linking = add(event, "linkingObjectIdentifier")
    add(linking, "linkingObjectIdentifierType", "path")
    add(linking, "linkingObjectIdentifierValue", bag)


def premis_of(name: str, bag: Row, events: List[Row]) -> str:
    """The document of a bag that has this name."""
    xml.register_namespace("premis", PREMIS)
    xml.register_namespace("xsi", XSI)
    root = xml.Element(f"{{{PREMIS}}}premis", {"version": "3.0"})
    kind = {f"{{{XSI}}}type": "premis:representation"}
    thing = xml.SubElement(root, f"{{{PREMIS}}}object", kind)
    identify(thing, "object", "path", name)
    for row in events:
        add_event(root, row, name)
    xml.indent(root) if hasattr(xml, "indent") else None
    return xml.tostring(root, "unicode")
