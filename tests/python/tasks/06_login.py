"""Check the password of a request, whose header may be anything, and log nothing secret."""

import hmac
from typing import Dict, Optional

from typed_headers import Credentials, Headers, InvalidField


def user_of(fields: Dict[str, str]) -> Optional[str]:
    try:
        given = Headers(fields).authorization
    except InvalidField as error:
        print("log:", error.field, "is malformed")
        return None
    print(f"log: {given!r}")
    if given is None or given.user is None or given.password is None:
        return None
    return given.user if hmac.compare_digest(given.password.encode(), b"open sesame") else None


print(user_of({"Authorization": str(Credentials("Aladdin", "open sesame"))}))
print(user_of({"Authorization": "Bearer mF_9.B5f-4.1JqM"}))
print(user_of({"Authorization": "Basic open sesame"}))
print(user_of({}))

# log: Credentials(user='Aladdin')
# Aladdin
# log: Credentials(user=None)
# None
# log: authorization is malformed
# None
# log: None
# None
