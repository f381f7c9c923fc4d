"""Applets of the Embedded Event Manager: one that types lines of configuration can change routes when its event comes."""
from __future__ import annotations

import re

from bonsainet.importing.folder import Folder
from bonsainet.importing.rules.options import Options
from bonsainet.configs.text import Stanza

REFUSED = "applet"
CONFIGURES = re.compile(r'^action \S+ (?:.* )?cli command "?\s*conf', re.IGNORECASE)


def judge(folder: Folder, _options: Options) -> None:
    """Refuses applets that enter the configuration, and tells of policies whose file the folder has not (Cisco IOS
    Embedded Event Manager, `action cli`, `event manager policy`)."""
    for router in folder.routers:
        for stanza in router.with_head("event", "manager"):
            if _configures(stanza):
                folder.log.refuse(
                    stanza.head,
                    REFUSED,
                    "the applet types lines of configuration when its event comes, and so can shut interfaces and change routes",
                )
            elif stanza.starts("event", "manager", "policy"):
                folder.log.remarks.append(
                    f"{stanza.head.place}: a policy is a script, which the folder has not: what it changes when its event comes is not in the text"
                )


def _configures(stanza: Stanza) -> bool:
    return any(CONFIGURES.match(" ".join(line.words)) for line in stanza.by_word.get("action", ()))
