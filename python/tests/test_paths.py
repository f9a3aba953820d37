"""Where nodes are after an edit. What is wanted is told by a tree of lists, on which the edits are done by hand."""

import random
import unittest

from marker import moved_path

# An edit, a path before it, and the path after it.
ROWS = (
    ("insert /1 2 <li/>", (1, 1), (1, 1)),
    ("insert /1 2 <li/>", (1, 2), (1, 3)),
    ("insert /1 2 <li/>", (1, 2, 0), (1, 3, 0)),
    ("insert /1 2 <li>a b</li>", (1,), (1,)),
    ("insert / 0 text", (), ()),
    ("insert / 0 text", (4, 1), (5, 1)),
    ("remove /1/2", (1, 2), None),
    ("remove /1/2", (1, 2, 5), None),
    ("remove /1/2", (1, 3, 5), (1, 2, 5)),
    ("remove /1/2", (1, 1), (1, 1)),
    ("remove /1/2", (1,), (1,)),
    ("remove /1/2", (2, 2), (2, 2)),
    ("move /0 / 2", (0, 7), (2, 7)),
    ("move /0 / 2", (2,), (1,)),
    ("move /0 / 2", (3,), (3,)),
    ("move /0 /1/0 0", (0,), (0, 0, 0)),
    ("move /0 /1/0 0", (1, 0, 0), (0, 0, 1)),
    ("move /1/0 / 0", (1, 1), (2, 0)),
    ("move /1/0 / 0", (), ()),
    ("set /0 title remove /0", (0,), (0,)),
    ("unset /0 title", (0, 1), (0, 1)),
    ("", (3, 1), (3, 1)),
)


class Node:
    def __init__(self, children=()):
        self.children = list(children)

    def at(self, path):
        node = self
        for place in path:
            node = node.children[place]
        return node

    def paths(self):
        """The path of each node under this one and of itself."""
        found, left = {}, [((), self)]
        while left:
            path, node = left.pop()
            found[node] = path
            left += [((*path, place), child) for place, child in enumerate(node.children)]
        return found


def spelled(path):
    return "/" + "/".join(map(str, path))


class MovedPath(unittest.TestCase):
    def test_rows(self):
        for line, path, moved in ROWS:
            with self.subTest(line=line, path=path):
                self.assertEqual(moved_path(line, path), moved)

    def test_it_is_where_the_node_is(self):
        pick = random.Random(1)
        for _ in range(2000):
            root = Node(Node(Node() for _ in range(pick.randrange(3))) for _ in range(3))
            before = root.paths()
            line = self.edit(pick, root, before)
            after = root.paths()
            for node, path in before.items():
                self.assertEqual(moved_path(line, path), after.get(node), (line, path))

    def edit(self, pick, root, paths):
        """Does an edit of the tree, and answers its line."""
        kind, node = pick.choice(("insert", "remove", "move")), pick.choice(list(paths))
        path = paths[node]
        if kind == "insert" or node is root:
            index = pick.randrange(len(node.children) + 1)
            node.children.insert(index, Node())
            return f"insert {spelled(path)} {index} <li/>"
        root.at(path[:-1]).children.remove(node)
        if kind == "remove":
            return f"remove {spelled(path)}"
        # The line has the paths from before the edit, and its position counts once the node is out.
        parent = pick.choice(list(root.paths()))
        index = pick.randrange(len(parent.children) + 1)
        parent.children.insert(index, node)
        return f"move {spelled(path)} {spelled(paths[parent])} {index}"


if __name__ == "__main__":
    unittest.main()
