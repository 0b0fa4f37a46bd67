"""The answers of `decide_cors`, by the library for C."""
from common import products
from common.server import ByteFields, section
from cors.policy import Answer, Policy

KINDS = ("no-origin", "plain", "preflight")


class Refused(Exception):
    """The rules are rejected."""


def answer(policy: Policy, method: bytes, request: ByteFields, response: ByteFields) -> Answer:
    headers = products.library()
    try:
        rules = headers.CorsPolicy(*policy.lists(), policy.max_age, policy.credentials)
        given = rules.answer(method, section(request), section(response))
    except headers.HeaderError:
        raise Refused from None
    fields = [(name.encode("latin-1"), value.encode("latin-1")) for name, value in given.fields]
    return Answer(KINDS[int(given.kind)], given.is_allowed, fields)


def takes(policy: Policy) -> bool:
    """Whether the rules make a policy."""
    try:
        answer(policy, b"GET", [], [])
    except Refused:
        return False
    return True
