"""Host names are looked at before all else: a backup copy beside its router would make every later judgement a false
one."""
from __future__ import annotations

from collections.abc import Iterator

from bonsainet.importing.folder import Folder, Source
from bonsainet.configs.text import Line

SAME = "same-name"


def refuse_same_names(folder: Folder) -> bool:
    """Refuses each router whose host name an earlier one has, and says whether there is one."""
    found = list(same_names(folder))
    for other, router in found:
        folder.log.refuse(_name_line(router), SAME, told_of_same(other, router))
    if found:
        folder.log.remarks.append("nothing else was judged: first each router needs a name of its own")
    return bool(found)


def same_names(folder: Folder) -> Iterator[tuple[Source, Source]]:
    """Each router whose host name an earlier one has, behind that one."""
    first: dict[str, Source] = {}
    for router in folder.routers:
        other = first.setdefault(router.name, router)
        if other is not router:
            yield other, router


def _name_line(router: Source) -> Line:
    return next(router.with_head("hostname")).head


def told_of_same(other: Source, router: Source) -> str:
    """What is reported of a router whose host name an earlier one has."""
    place = _name_line(other).place
    where = f"{place}" if place.line else place.file
    told = f"{where} has the host name {other.name} too"
    if other.file == router.file:
        return f"{told}: each router has a name of its own"
    same = [line.words for line in other.lines] == [line.words for line in router.lines]
    is_copy = f"{router.file} is a copy of {other.file}" if same else f"if {router.file} is a copy"
    return f"{told}: {is_copy}{';' if same else ','} leave it out by --skip '{router.file.rpartition('/')[2]}'"
