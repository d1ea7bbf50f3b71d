"""The links of pages: each leads to a file that is there and, if it names a heading, to one that the page has."""
import os
import re

from harness.places import TOP


def anchors(page):
    """What a link may name of a page: its headings in lower-case letters, without signs, with hyphens between the words."""
    with open(page, encoding="utf-8") as file:
        text = re.sub(r"^```.*?^```", "", file.read(), flags=re.M | re.S)
    found = []
    for title in re.findall(r"^#+ (.*)$", text, re.M):
        title = re.sub(r"\[([^\]]*)\]\([^)]*\)", r"\1", title).lower()
        anchor = re.sub(r"[^\w\- ]", "", title).replace(" ", "-")
        before = sum(it == anchor or re.fullmatch(rf"{re.escape(anchor)}-\d+", it) is not None for it in found)
        found.append(f"{anchor}-{before}" if before else anchor)
    return found


def faults_of_links(page, text):
    """The links of a page, by its path in the repository, that lead nowhere."""
    faults = []
    for target in re.findall(r"\]\(([^)\s]+)\)", text):
        if "://" in target or target.startswith("mailto:"):
            continue
        name, _, anchor = target.partition("#")
        path = os.path.normpath(os.path.join(TOP, os.path.dirname(page), name)) if name else f"{TOP}/{page}"
        if not os.path.exists(path):
            faults.append(f"there is no {target}")
        elif anchor and path.endswith(".md") and anchor not in anchors(path):
            faults.append(f"there is no such heading: {target}")
    return faults
