"""Scripts of one other site may PUT to an interface, with cookies. What does a browser get that asks beforehand?"""

from typed_headers import CorsPolicy

policy = CorsPolicy("https://shop.example", methods=["PUT"], headers=["content-type"], credentials=True)
for origin in ("https://shop.example", "https://other.example"):
    asked = {"Origin": origin, "Access-Control-Request-Method": "PUT", "Access-Control-Request-Headers": "content-type"}
    answer = policy.answer("OPTIONS", asked)
    print(origin, answer.is_allowed)
    for name, value in answer.fields:
        print(f"  {name}: {value}")

# https://shop.example True
#   access-control-allow-origin: https://shop.example
#   access-control-allow-credentials: true
#   access-control-allow-methods: PUT
#   access-control-allow-headers: content-type
#   vary: origin
# https://other.example False
#   vary: origin
