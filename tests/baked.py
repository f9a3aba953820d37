"""Reads baked documents with Python's XML parser, which knows nothing of ours, and compares them with their sources.

    python3 tests/baked.py PROGRAM SHEET DOC..     bakes each DOC and compares it; ends with status 1 where one differs
"""

import html.entities
import subprocess
import sys
import xml.etree.ElementTree as ElementTree
from pathlib import Path

CLASSES = {"baked-marker", "baked-before", "baked-after"}


def parsed(text):
    """The tree of a document with its comments and processing instructions. Entities that its type would declare count as
    HTML's."""
    parser = ElementTree.XMLParser(target=ElementTree.TreeBuilder(insert_comments=True, insert_pis=True))
    parser.entity.update(html.entities.entitydefs)
    parser.feed(text)
    return parser.close()


def is_inserted(element):
    """Whether an element is one that `marker bake` puts in."""
    is_span = isinstance(element.tag, str) and element.tag.rpartition("}")[2].rpartition(":")[2] == "span"
    return is_span and set(element.attrib) == {"class"} and element.attrib["class"] in CLASSES


def without_insertions(tree):
    """Takes the inserted elements out of a tree, and returns how many there were."""
    parents = [it for it in tree.iter() if any(is_inserted(child) for child in it)]
    count = 0
    for parent in parents:
        before = None
        for child in list(parent):
            if not is_inserted(child):
                before = child
                continue
            count += 1
            if before is None:
                parent.text = (parent.text or "") + (child.tail or "")
            else:
                before.tail = (before.tail or "") + (child.tail or "")
            parent.remove(child)
    return count


def canonical(tree):
    """The canonical form of a tree, in which two documents of the same content are the same."""
    return ElementTree.canonicalize(ElementTree.tostring(tree, encoding="unicode"), with_comments=True)


def insertions(source, baked):
    """How many elements a baked document has that its source has not; None where anything else differs, or where it is no
    XML."""
    try:
        tree = parsed(baked)
    except ElementTree.ParseError:
        return None
    count = without_insertions(tree)
    return count if canonical(tree) == canonical(parsed(source)) else None


def main(program, sheet, *documents):
    texts, unread, failures = 0, 0, []
    for name in documents:
        ran = subprocess.run([program, "bake", name, sheet], capture_output=True)
        source = Path(name).read_bytes().decode()
        try:
            parsed(source)
        except ElementTree.ParseError:
            # What this parser cannot read, a prefix without a namespace say, it cannot compare.
            unread += 1
            continue
        count = insertions(source, ran.stdout.decode()) if ran.returncode in (0, 11) else None
        if count is None:
            failures.append(f"{name}: status {ran.returncode}, other than its source")
        texts += count or 0
    print(f"baked: {len(documents)} documents, {texts} texts put in; {len(failures)} differ, {unread} not read by the other parser")
    print(*failures, sep="\n", end="\n" if failures else "", file=sys.stderr)
    return min(len(failures), 1)


if __name__ == "__main__":
    sys.exit(main(*sys.argv[1:]))
