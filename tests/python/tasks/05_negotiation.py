"""A report is there as HTML and as JSON, and in English and German. Which one does each client get?"""

from typed_headers import choose_language, choose_type

CLIENTS = [
    {"Accept": "text/html,application/xhtml+xml,*/*;q=0.8", "Accept-Language": "de-CH, de;q=0.9, en;q=0.5"},
    {"Accept": "application/json"},
    {"Accept": "image/png", "Accept-Language": "en"},
]
for request in CLIENTS:
    print(choose_type(request, ["application/json", "text/html"]), choose_language(request, ["en", "de"]))

# text/html de
# application/json en
# None en
