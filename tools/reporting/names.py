"""The names of sources, as HTML and as texts for plots."""
from __future__ import annotations

from reporting.session import Session
from reporting.sources import name_of

MOST_NAME = 15  # characters of a CNAME in a plot


def cname_of(session: Session, ssrc: int) -> bytes | None:
    """The CNAME of an SSRC, this participant's own included."""
    source = session.heard.get(ssrc)
    if source and source.cname is not None:
        return source.cname
    return session.options["cname"] if ssrc in session.own and not session.is_captured else None


def party(session: Session, ssrc: int) -> str:
    """A name with its SSRC, as HTML."""
    name = cname_of(session, ssrc)
    own = " (this participant)" if ssrc in session.own else ""
    return f"{name_of(name) + ' ' if name is not None else ''}<code>{ssrc:08x}</code>{own}"


def plain_name(session: Session, ssrc: int) -> str:
    """A short name, or else the SSRC, as a text."""
    name = cname_of(session, ssrc)
    if name is None:
        return f"{ssrc:08x}"
    words = name.decode(errors="replace")
    return words if len(words) <= MOST_NAME else words[:MOST_NAME].rstrip(".@-") + "…"
