"""deb822.py fields FILE: reads each field of each paragraph with python-debian.

deb822.py diff OLD NEW: prints which fields differ in packages of the same name and architecture.
deb822.py json FILE: prints each paragraph as a line of JSON, with the parts of its relations.
"""
import json
import sys

from debian.deb822 import Packages


def paragraphs(path):
    """The paragraphs of a file, read without apt_pkg."""
    with open(path, encoding="utf-8") as file:
        yield from Packages.iter_paragraphs(file, use_apt_pkg=False)


def key_of(paragraph):
    """What a package is found by in the other file."""
    return paragraph["Package"], paragraph["Architecture"]


def print_differing(key, before, after):
    """Prints the names of the fields that differ, if there are any."""
    names = [name for name in {**before, **after} if before.get(name) != after.get(name)]
    if names:
        print(*key, *names)


def diff(old, new):
    """Prints what differs between two files. Only the packages of the old one are kept in memory."""
    kept = {key_of(it): it for it in paragraphs(old)}
    for after in paragraphs(new):
        print_differing(key_of(after), kept.pop(key_of(after), {}), after)
    for key, before in kept.items():
        print_differing(key, before, {})


def print_json(paragraph):
    """Prints the fields of a paragraph, each relation by its groups."""
    relations = {name: groups for name, groups in paragraph.relations.items() if groups}
    print(json.dumps({name: relations.get(name.lower(), it) for name, it in paragraph.items()}))


if sys.argv[1] == "fields":
    for paragraph in paragraphs(sys.argv[2]):
        dict(paragraph)
elif sys.argv[1] == "json":
    for paragraph in paragraphs(sys.argv[2]):
        print_json(paragraph)
else:
    diff(sys.argv[2], sys.argv[3])
