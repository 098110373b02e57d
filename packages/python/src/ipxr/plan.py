"""What stays when a gateway reads another configuration."""
from __future__ import annotations

from typing import Any, NamedTuple, Optional, Sequence

from . import raw
from ._library import calls
from .numbers import MOST_PLANNED, NO_ONE, TunnelFate
from .values import judged, packed, packed_list


class Origin(NamedTuple):
    """What a new link is made from: the old link that it continues, if any, whose cable it has, and what becomes of its tunnel."""

    was: Optional[int]
    cable: int
    tunnel: TunnelFate
    is_kept: bool
    is_as_before: bool
    has_other_clients: bool
    has_other_sockets: bool


class LinkFate(NamedTuple):
    """What becomes of an old link: the new one that continues it, if any."""

    becomes: Optional[int]
    is_closed: bool
    ends_tunnel: bool


class Plan(NamedTuple):
    """Whether the router stays, what each new link is made from, and what becomes of each old one."""

    stays_router: bool
    origins: list[Origin]
    fates: list[LinkFate]


def plan_link(**values: Any) -> raw.ipxr_plan_link:
    """A link of a configuration, by the fields of ipxr_plan_link."""
    return packed(raw.ipxr_plan_link, "the link", values)


def _one(number: int) -> Optional[int]:
    return None if number == NO_ONE else number


def plan(old: Sequence[raw.ipxr_plan_link], links: Sequence[raw.ipxr_plan_link]) -> Plan:
    """Plans what stays of the old links with the new ones."""
    (before, old_count), (after, count) = (packed_list(raw.ipxr_plan_link, it, MOST_PLANNED) for it in (old, links))
    origins, fates = (raw.ipxr_plan_origin * max(count, 1))(), (raw.ipxr_plan_fate * max(old_count, 1))()
    stays = judged(calls.ipxr_plan(before, old_count, after, count, origins, count, fates, old_count))
    made = [Origin(_one(it.was), it.cable, TunnelFate(it.tunnel), it.is_kept, it.is_as_before, it.has_other_clients, it.has_other_sockets)
            for it in origins[:count]]
    return Plan(stays == 1, made, [LinkFate(_one(it.becomes), it.is_closed, it.ends_tunnel) for it in fates[:old_count]])
