"""Read what `http.server` gives: which session a request has, and whether it knows a page of a given day."""

from datetime import datetime, timezone
from http.client import HTTPMessage

from typed_headers import Headers, IfModifiedSince, Target, evaluate

changed = datetime(2024, 2, 29, 12, 0, tzinfo=timezone.utc)
message = HTTPMessage()
message["Cookie"] = "theme=dark; SID=31d4d96e407aad42"
message["If-Modified-Since"] = str(IfModifiedSince(changed))

request = Headers(message)
cookie = request.cookie
print(cookie and cookie.get("SID"), repr(cookie))
print(request["if-modified-since"], request.if_modified_since == changed)
print(evaluate("GET", request, Target(last_modified=changed)).name)

# 31d4d96e407aad42 Cookie(names=('theme', 'SID'))
# Thu, 29 Feb 2024 12:00:00 GMT True
# NOT_MODIFIED
