"""The choices of Python's libraries: by_python.py werkzeug|webob|mimeparse CASES.json > CHOICES.json

A choice is the place of an offer, or null; a text that begins with a parenthesis says why there is none."""
import json
import sys
import warnings

FIELDS = {"accept": "Accept", "encoding": "Accept-Encoding", "language": "Accept-Language"}


def by_werkzeug(case):
    from werkzeug.datastructures import Accept, LanguageAccept, MIMEAccept
    from werkzeug.http import parse_accept_header

    kind = {"accept": MIMEAccept, "encoding": Accept, "language": LanguageAccept}[case["dimension"]]
    return parse_accept_header(", ".join(case["lines"]) if case["lines"] else None, kind).best_match(case["offers"])


def by_webob(case):
    from webob import acceptparse

    value = ", ".join(case["lines"]) if case["lines"] else None
    if case["dimension"] == "language":
        header = acceptparse.create_accept_language_header(value)
        if not hasattr(header, "basic_filtering"):  # there is no field, or one that it can't parse
            return case["offers"][0]
        found = header.basic_filtering(case["offers"])
    else:
        make = {"accept": acceptparse.create_accept_header, "encoding": acceptparse.create_accept_encoding_header}
        found = make[case["dimension"]](value).acceptable_offers(case["offers"])
    return found[0][0] if found else None


def by_mimeparse(case):
    import mimeparse

    # (of equal offers it takes the last)
    return mimeparse.best_match(case["offers"][::-1], ", ".join(case["lines"])) or None


def choice(call, case):
    if call is by_mimeparse and (case["dimension"] != "accept" or not case["lines"]):
        return "(not asked)"
    try:
        found = call(case)
    except Exception as error:  # whatever a library raises is its answer
        return f"(fails) {type(error).__name__}"
    return None if found is None else case["offers"].index(found)


warnings.simplefilter("ignore")
library, path = sys.argv[1:]
choose = {"werkzeug": by_werkzeug, "webob": by_webob, "mimeparse": by_mimeparse}[library]
with open(path, encoding="utf-8") as file:
    json.dump([choice(choose, case) for case in json.load(file)], sys.stdout)
