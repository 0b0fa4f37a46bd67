"""An interface has one resource, which is read and replaced. Answer every method and every precondition rightly."""

from typing import Dict, List, Tuple

from typed_headers import Method, Representation, Resource, Sends

notes = Resource(
    [Method("GET"), Method("PUT", "text/plain", needs_condition=True)],
    [Representation("text/plain", length=4, etag='"1"')],
)
REQUESTS: List[Tuple[str, Dict[str, str]]] = [
    ("GET", {}),
    ("HEAD", {"If-None-Match": '"1"'}),
    ("PUT", {"Content-Type": "text/plain", "If-Match": '"1"'}),
    ("PUT", {"Content-Type": "text/plain"}),
    ("PUT", {"Content-Type": "image/png", "If-Match": '"1"'}),
    ("DELETE", {}),
]
for method, fields in REQUESTS:
    answer = notes.answer(method, {"Host": "a.example", **fields}, length=4 if method == "PUT" else 0)
    print(method, "is performed" if answer.sends is Sends.RESULT else answer.status, answer.reason.name)

# GET 200 ADMITTED
# HEAD 304 ADMITTED
# PUT is performed ADMITTED
# PUT 428 PRECONDITION_REQUIRED
# PUT 415 UNSUPPORTED_MEDIA_TYPE
# DELETE 405 METHOD_NOT_ALLOWED
