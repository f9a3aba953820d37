"""Where nodes are after an edit."""

from __future__ import annotations

Path = tuple[int, ...]


def moved_path(line: str, path: Path) -> Path | None:
    """Where the node at this path is once the edit of this line is done; None where the edit takes it away.

    The line is one that Document.apply accepted, and the path one of the document before it. So who keeps lines by their
    paths has those of the edited document: each at its moved path, or left out where there is none, and then the changes
    of the edit put in.
    """
    word, _, rest = line.removeprefix("\ufeff").partition(" ")
    if word == "insert":
        parent, index, _ = rest.split(" ", 2)
        return _with_room(path, _path_of(parent), int(index))
    if word == "remove":
        return _without(path, _path_of(rest))
    if word == "move":
        source, parent, index = rest.split(" ")
        return _moved(path, _path_of(source), _path_of(parent), int(index))
    return path


def _path_of(word: str) -> Path:
    return tuple(int(it) for it in word.split("/") if it)


def _with_room(path: Path, parent: Path, index: int) -> Path:
    """The path once a node has come in as this child of the parent."""
    depth = len(parent)
    if path[:depth] != parent or len(path) == depth or path[depth] < index:
        return path
    return (*parent, path[depth] + 1, *path[depth + 1 :])


def _without(path: Path, gone: Path) -> Path | None:
    """The path once the node at `gone`, which is not the root, is taken out; None for that node and all under it."""
    *parent, place = gone
    depth = len(parent)
    if path[:depth] != tuple(parent) or len(path) == depth or path[depth] < place:
        return path
    if path[depth] == place:
        return None
    return (*parent, path[depth] - 1, *path[depth + 1 :])


def _moved(path: Path, source: Path, parent: Path, index: int) -> Path:
    parent_then = _without(parent, source)
    assert parent_then is not None, "a node does not move into itself"
    path_then = _without(path, source)
    if path_then is None:
        return (*parent_then, index, *path[len(source) :])
    return _with_room(path_then, parent_then, index)
