"""What applications that answer for resources have in common."""

from typing import Optional, Tuple

from ._exchange import CONDITIONS, ORIGINS, Fields, Response, with_parts
from .resource import Answer, Representation, Resource, Sends

#: A media type, and content of it.
Explanation = Tuple[str, bytes]


def list_alternatives(answer: Answer, resource: Resource) -> Optional[Explanation]:
    """For a 406, a line for each representation: its media type, its language and its coding (RFC 9110, 15.5.7)."""
    if answer.sends is not Sends.ALTERNATIVES:
        return None
    parts = ((it.media_type, it.language, it.coding) for it in resource.representations)
    lines = (" ".join(str(part) for part in it if part is not None) + "\n" for it in parts)
    return "text/plain", "".join(lines).encode("latin-1")


#: The fields of a request by which a resource answers it, beside Content-Type.
DECIDING = (
    "host",
    "expect",
    "content-encoding",
    "accept",
    "accept-language",
    "accept-encoding",
    *CONDITIONS,
    *ORIGINS,
)


def explained(answer: Answer, explanation: Explanation) -> Fields:
    """The fields of an answer that sends nothing of the resource, with this content."""
    media_type, content = explanation
    fields = [it for it in answer.fields if it[0] not in ("content-type", "content-length")]
    return [*fields, ("content-type", media_type), ("content-length", str(len(content)))]


def ranges(answer: Answer, shown: Representation, boundary: str) -> Response:
    """The parts of a 206, and its length if it has several."""
    media_type = None if shown.media_type is None else str(shown.media_type)
    return with_parts(206, list(answer.fields), answer.ranges, media_type, shown.length or 0, boundary)
