"""Two people edit one note. Whoever saves over a version that they haven't seen is told so, and nothing is lost."""

from typing import Dict

from typed_headers import ETag, Precondition, Target, evaluate

text, version = "milk", 1


def put(fields: Dict[str, str], new_text: str) -> int:
    """Answers a PUT with a status."""
    global text, version
    if evaluate("PUT", fields, Target(ETag(str(version)))) is Precondition.FAILED:
        return 412
    text, version = new_text, version + 1
    return 204


print(put({"If-Match": '"1"'}, "milk and bread"))
print(put({"If-Match": '"1"'}, "eggs"))
print(text)

# 204
# 412
# milk and bread
