"""Follows each link of documents to a file of the repository or to a heading of a document: tests/links.py DOCUMENT.."""
import os
import re
import sys


def headings(path):
    """The names by which a document's headings can be linked to, as GitHub makes them."""
    with open(path, encoding="utf-8") as file:
        titles = re.findall(r"^#+ (.*)$", file.read(), re.MULTILINE)
    return {re.sub(r"[^\w\- ]", "", title.lower()).replace(" ", "-") for title in titles}


followed, broken = 0, []
for document in sys.argv[1:]:
    with open(document, encoding="utf-8") as file:
        links = re.findall(r"\]\(([\w.#/][^)\s]*)\)", file.read())
    for link in links:
        path, _, heading = link.partition("#")
        if "://" in link:
            continue
        followed += 1
        target = os.path.join(os.path.dirname(document), path) if path else document
        if not os.path.exists(target) or (heading and heading not in headings(target)):
            broken.append(f"{document}: {link} leads nowhere")
print("\n".join(broken) or f"{followed} links lead somewhere")
sys.exit(bool(broken) or followed == 0)
