"""What a BagIt profile says of archive files. A bag that came in one is
checked in a folder, so this is compared here, and all else by bagit."""
import json
import os
import re
from contextlib import suppress
from typing import Any, Dict, Optional

from .files import write_synced
from .members import Unfit
from .places import Work
from .program import Asked

ACCEPTED = {
    "zip": "zip zip-compressed",
    "tar": "tar gtar",
    "tar.gz": "gzip tar+gzip compressed-tar gtar-compressed",
    "tar.bz2": "bzip2 bzip bzip-compressed-tar",
    "tar.xz": "xz xz-compressed-tar",
    "tar.zst": "zstd",
}
"""How Accept-Serialization may name a form, after application/ or x-."""


def why_not_so(profile: Dict[str, Any], form: str) -> Optional[str]:
    """What a profile has against an archive file of this form."""
    types = profile.get("Accept-Serialization")
    if profile.get("Serialization") == "forbidden":
        return "the profile allows no archive file"
    if isinstance(types, list):
        begin = re.compile("^application/(x-)?")
        names = {begin.sub("", str(it).lower()) for it in types}
        if not names & set(ACCEPTED[form].split()):
            accepts = ", ".join(map(str, types))
            return f"the profile accepts {accepts}, and this is a .{form}"
    return None


def asked_by(profile: Optional[bytes], form: str, work: Work) -> Asked:
    """A full check by what a profile says of a bag that lies in a folder, and
    comes in this form; or Unfit."""
    if profile is None:
        return Asked()
    rules = json.loads(profile)
    if form != "folder":
        if why := why_not_so(rules, form):
            raise Unfit(why)
        rules["Serialization"] = "optional"
        rules.pop("Accept-Serialization", None)
    path = work.at("profile.json")
    with suppress(FileNotFoundError):
        os.unlink(path)
    write_synced(path, json.dumps(rules).encode())
    return Asked(profile=path)
