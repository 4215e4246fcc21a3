"""The lists beside an export of one folder, as a trial alters them (docs/SERVE.md, In and out)."""
import hashlib
import re


def seal(top):
    """Gives the lists of the folder `top` their sum anew: the SHA-256 of both, without it."""
    texts = []
    for name in ("order", "properties"):
        with open(f"{top}.{name}.json", encoding="utf-8") as it:
            texts.append(it.read())
    bare = re.sub(', "sum": "[0-9a-f]{64}"', "", texts[0], count=1)
    total = hashlib.sha256((bare + texts[1]).encode()).hexdigest()
    with open(f"{top}.order.json", "w", encoding="utf-8") as it:
        it.write(bare.replace("}", f', "sum": "{total}"}}', 1))
