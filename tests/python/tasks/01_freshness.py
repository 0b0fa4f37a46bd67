"""For how long may a CDN keep each of these responses, and which of them may it not store at all?"""

from typed_headers import Headers, lifetime, may_store

RESPONSES = {
    "page": Headers({"Cache-Control": "public, max-age=60, s-maxage=600"}),
    "account": Headers({"Cache-Control": "private, max-age=60"}),
    "picture": Headers({"Expires": "Sun, 06 Nov 1994 09:49:37 GMT", "Date": "Sun, 06 Nov 1994 08:49:37 GMT"}),
    "broken": Headers({"Cache-Control": "max-age=soon"}),
}
for name, response in RESPONSES.items():
    if may_store("GET", {}, 200, response, shared=True):
        print(name, lifetime(response, shared=True))
    else:
        print(name, "is not stored")

# page 600
# account is not stored
# picture 3600
# broken 0
