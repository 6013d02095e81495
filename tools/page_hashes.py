#!/usr/bin/env python3
"""Writes the hashes of the console page's style and script into the policy that is served with the page."""
import base64, hashlib, os, re

here = os.path.join(os.path.dirname(os.path.abspath(__file__)), "..", "crates", "web_pages", "src")
# the parts of the page, in their order
PARTS = ("head", "tables", "live", "passes", "commands")


def part(name):
    text = open(os.path.join(here, "page", name + ".rt"), encoding="utf-8").read()
    return re.search(r'r##"(.*)"##;', text, re.S).group(1)


page = "".join(map(part, PARTS))


def hash_of(tag):
    body = re.search(r"<%s>(.*?)</%s>" % (tag, tag), page, re.S).group(1)
    return "sha256-" + base64.b64encode(hashlib.sha256(body.encode()).digest()).decode()


path = os.path.join(here, "headers.rt")
text = open(path, encoding="utf-8").read()
for name, tag in (("style-src", "style"), ("script-src", "script")):
    text = re.sub(r"%s '[^']*'" % name, lambda _: "%s '%s'" % (name, hash_of(tag)), text)
open(path, "w", encoding="utf-8").write(text)
