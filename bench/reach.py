"""Makes up documents, sheets and edits for reach.sh, one a line, and reports what the program answered.

    reach.py make EDITS SEED
    reach.py report LINES ANSWERS
"""

import random
import sys
from collections import Counter
from itertools import islice

NAMES = ("a", "b", "li", "ol", "q")
ATTRIBUTES = {
    "class": ("x", "y", "x y", ""),
    "id": ("i", "j"),
    "hidden": ("",),
    "value": ("3", "9"),
    "start": ("2",),
    "reversed": ("",),
    "type": ("a", "text/css", "text/plain", ""),
    "style": ("quotes:'s' 's'", "counter-reset:s", "display:list-item", "content:inherit"),
}
POSITIONS = (
    ":first-child", ":last-child", ":only-child", ":first-of-type", ":last-of-type", ":only-of-type", ":nth-child(2n)",
    ":nth-last-child(2)", ":nth-of-type(odd)", ":nth-last-of-type(2n+1)", ":nth-child(-n+2)",
)
TESTS = (".x", ".y", "#i", "[class]", "[class~=x]", "[value='3']", "[hidden]", "[id^=i]", "[class*=Y i]", ":root")
MOST_NODES = 25
EDITS_OF_A_DOCUMENT = 12  # beside a first one, which gives it a sheet
REACHED = "where edits reach beside these"
PLACES = ("in the edited trees", REACHED, "outside")  # in the order of the answers
MOST_SHOWN = 3


class Element:
    def __init__(self, name, attributes, children):
        self.name, self.attributes, self.children = name, attributes, children


def written(node):
    if isinstance(node, str):
        return node
    attributes = "".join(f' {name}="{value}"' for name, value in node.attributes.items())
    return f"<{node.name}{attributes}>{''.join(map(written, node.children))}</{node.name}>"


def nodes_in(node, path=()):
    """Each node in this one, itself first, with its path."""
    yield path, node
    if isinstance(node, Element):
        for place, child in enumerate(node.children):
            yield from nodes_in(child, (*path, place))


class Made:
    """What is made up from draws. `looks` says at what its selectors look beside an element and its ancestors."""

    def __init__(self, draws):
        self.draws = draws
        self.number = 0
        self.look_elsewhere()

    def look_elsewhere(self):
        self.looks = {it for it in ("siblings", "positions", "empties") if self.draws.random() < 0.5}

    # Sheets

    def simple(self, depth):
        kinds = ["test", "test", "name"]
        kinds += ["position"] * 3 if "positions" in self.looks else []
        kinds += ["empty"] * 3 if "empties" in self.looks else []
        kinds += ["choice"] if depth else []
        kind = self.draws.choice(kinds)
        if kind == "test":
            return self.draws.choice(TESTS)
        if kind == "position":
            return self.draws.choice(POSITIONS)
        if kind == "empty":
            return self.draws.choice((":empty", ":not(:empty)"))
        if kind == "choice":
            choices = ",".join(self.compound(depth - 1) for _ in range(self.draws.choice((1, 2))))
            return f"{self.draws.choice((':is', ':where', ':not'))}({choices})"
        return ""

    def compound(self, depth=2):
        name = self.draws.choice((*NAMES, "*", "", "", "", ""))
        return name + "".join(self.simple(depth) for _ in range(self.draws.choice((0, 1, 1, 2)))) or "*"

    def selector(self):
        joins = (" ", ">", "+", "~", "+", "~") if "siblings" in self.looks else (" ", ">")
        more = "".join(self.draws.choice(joins) + self.compound() for _ in range(self.draws.choice((0, 0, 1, 1, 2))))
        return self.compound() + more + self.draws.choice(("", "", "", "::before", "::after", "::marker"))

    def declaration(self):
        """A declaration with a number that no other has, where its value may be any."""
        self.number += 1
        return self.draws.choice((
            "content:'{0}'", "content:counter(c{0})", "quotes:'{0}' '{0}'", "counter-reset:c{0}", "counter-increment:c{0}",
            "counter-set:c{0}", "counter-reset:reversed(c{0})", "list-style-type:'{0}'", "display:none", "display:list-item",
            "content:inherit",
        )).format(self.number)

    def sheet(self):
        rules = (
            f"{','.join(self.selector() for _ in range(self.draws.choice((1, 1, 2))))}"
            f"{{{';'.join(self.declaration() for _ in range(self.draws.choice((1, 2))))}}}"
            for _ in range(self.draws.choice((3, 5, 8)))
        )
        return "".join(rules)

    # Documents

    def attribute(self):
        name = self.draws.choice(list(ATTRIBUTES))
        return name, self.draws.choice(ATTRIBUTES[name])

    def element(self, depth):
        attributes = dict(self.attribute() for _ in range(self.draws.choice((0, 0, 1, 2))))
        if self.draws.random() < 0.05:
            return Element("style", attributes, [self.sheet()])
        count = self.draws.choice((0, 0, 1, 2, 3)) if depth else 0
        return Element(self.draws.choice(NAMES), attributes, self.children(count, depth - 1))

    def node(self, depth):
        return self.draws.choice(("t", " ")) if self.draws.random() < 0.2 else self.element(depth)

    def children(self, count, depth):
        """So many nodes, without texts behind texts: these would be read as one."""
        made = []
        for _ in range(count):
            node = self.node(depth)
            if not (made and isinstance(node, str) and isinstance(made[-1], str)):
                made.append(node)
        return made

    def document(self):
        return Element("r", {}, self.children(self.draws.choice((1, 2, 3, 4)), 3))

    # Edits: each changes the document, and gives its line

    def spot(self, document, is_wanted):
        return self.draws.choice([(path, node) for path, node in nodes_in(document) if is_wanted(path, node)])

    def insert(self, document):
        path, parent = self.spot(document, lambda path, node: isinstance(node, Element))
        node = self.sheet() if parent.name == "style" and self.draws.random() < 0.7 else self.node(2)
        index = self.draws.randint(0, len(parent.children))
        parent.children.insert(index, node)
        return f"insert {line_of(path)} {index} {written(node)}"

    def remove(self, document):
        path, node = self.spot(document, lambda path, node: path)
        del at(document, path[:-1]).children[path[-1]]
        return f"remove {line_of(path)}"

    def move(self, document):
        origin, node = self.spot(document, lambda path, node: path)
        path, parent = self.spot(document, lambda path, node: isinstance(node, Element) and path[: len(origin)] != origin)
        del at(document, origin[:-1]).children[origin[-1]]
        index = self.draws.randint(0, len(parent.children))
        parent.children.insert(index, node)
        return f"move {line_of(origin)} {line_of(path)} {index}"

    def set(self, document):
        path, element = self.spot(document, lambda path, node: isinstance(node, Element))
        name, value = self.attribute()
        element.attributes[name] = value
        return f"set {line_of(path)} {name} {value}"

    def unset(self, document):
        path, element = self.spot(document, lambda path, node: isinstance(node, Element))
        name = self.draws.choice([*element.attributes, self.attribute()[0]])
        element.attributes.pop(name, None)
        return f"unset {line_of(path)} {name}"

    def replace(self, document):
        self.look_elsewhere()
        return f"sheet {self.sheet()}"

    def edit(self, document):
        count = sum(1 for _ in nodes_in(document))
        kinds = [self.insert] * 4 + [self.set] * 4 + [self.unset] * 2
        if count > 1:
            kinds += [self.remove] * (9 if count > MOST_NODES else 3) + [self.move] * 5
        return self.replace(document) if self.draws.random() < 0.02 else self.draws.choice(kinds)(document)


def line_of(path):
    return "".join(f"/{it}" for it in path) or "/"


def at(node, path):
    for place in path:
        node = node.children[place]
    return node


def lines(seed):
    """Documents without end: the line of each, of its sheet, and of its edits."""
    made = Made(random.Random(seed))
    while True:
        made.look_elsewhere()
        document = made.document()
        yield f"document {written(document)}"
        yield f"sheet {made.sheet()}"
        for _ in range(EDITS_OF_A_DOCUMENT):
            yield made.edit(document)


def make(edits, seed):
    documents = -(-edits // (EDITS_OF_A_DOCUMENT + 1))
    for line in islice(lines(seed), documents * (EDITS_OF_A_DOCUMENT + 2)):
        print(line)


def edits(lines):
    """Of each edit the lines of its document up to its own, which is the last."""
    document = []
    for line in lines:
        if line.startswith("document "):
            document = [line]
        else:
            document = [*document, line]
            yield document


class Totals:
    """How many edits there were of each kind and reach, and how many elements at each place, with how many other styles."""

    def __init__(self):
        self.kinds, self.reaches = Counter(), Counter()
        self.elements, self.changed = Counter(), Counter()

    def add(self, kind, reach, numbers):
        self.kinds[kind] += 1
        self.reaches[reach] += 1
        for place, elements, changed in zip(PLACES, numbers[::2], numbers[1::2]):
            self.elements[place] += elements
            self.changed[place] += changed

    def __str__(self):
        edits = f"{sum(self.kinds.values())} edits: {told(self.kinds)}"
        places = (f"{self.elements[it]} elements {it}: {self.changed[it]} with other styles" for it in PLACES)
        return "\n".join((edits, f"their reaches: {told(self.reaches)}", *places))


def told(counts):
    return ", ".join(f"{count} {word}" for word, count in counts.most_common())


def report(lines, answers):
    """Says what came of the edits, and shows the first that are wrong; the status with which to end."""
    totals, wrong = Totals(), []
    for document, answer in zip(edits(lines), answers):
        reach, *numbers = answer.split()
        if reach == "refused":
            raise SystemExit("\n".join(("refused:", *document)))
        numbers = [int(number) for number in numbers]
        totals.add(document[-1].split()[0], reach, numbers)
        if numbers[-1]:
            wrong.append(document)
    for document in wrong[:MOST_SHOWN]:
        print("WRONG:", *document, sep="\n", file=sys.stderr)
    print(totals)
    print(f"{len(wrong)} edits are wrong")
    if not totals.changed[REACHED]:
        print("no style changed where edits reach, so these edits show nothing")
    return 1 if wrong or not totals.changed[REACHED] else 0


if __name__ == "__main__":
    if sys.argv[1] == "make":
        make(int(sys.argv[2]), int(sys.argv[3]))
    else:
        with open(sys.argv[2]) as made, open(sys.argv[3]) as answered:
            sys.exit(report((line.rstrip("\n") for line in made), answered))
