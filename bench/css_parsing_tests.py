"""Compares how we read style sheets with the cases of the CSS parsing tests: tokens with the lists of component
values, rules with the lists of rules and the style sheets, declarations with the lists of declarations and the
single ones.

The suite nests the tokens of a function or of a block in it. Here they are put in a row, with the bracket that
closes it; at the end of a text the suite does not tell whether that stood there, so such brackets are left
away on both sides. What the suite counts as an error at the end of a text makes no token. A number that is not
whole, a percentage and a dimension are compared in kind alone, since our tokens hold no more of them.

Rules and declarations are compared as they are cut, before a selector or a value is read. A rule without a block
is none of ours, so at-rules without one and the suite's errors between rules are left away, and so are at-rules
between declarations. What is no declaration is an error on both sides.

Outside our profile is the token `unicode-range`, which the suite has from the draft of 2013 and CSS Syntax 3
has no more: a case with one is left out. Operators like `~=`, which were one token there, are two of ours. The
other cases that are left out stand in OUTSIDE, each with its reason; there docs/sheets.md says what holds.
"""

import json
import pathlib
import subprocess
import sys

COUNT_LOW, COUNT_HIGH = -(2**31), 2**31 - 1
BRACKETS = {"()": "()", "[]": "[]", "{}": "{}"}
NAMED = {"ident": "word", "at-keyword": "at", "string": "string", "url": "url"}
AT_THE_END = ("eof-in-string", "eof-in-url")

LONE_MARK = "a `!` outside of blocks that begins no `!important` makes it no declaration: no value has one"
TO_THE_END = "a declaration goes to the next `;`, and not to the end of the text"
OUTSIDE = {
    ("rule_list.json", " /* CDO/CDC are not special */ <!-- --> {"): "our rules stand at the top level, where both are",
    ("declaration_list.json", "z:x!;a:b"): LONE_MARK,
    ("one_declaration.json", " ;"): "a `;` alone is nothing, and no error",
    ("one_declaration.json", "@foo:"): "an at-rule between declarations is nothing, and no error",
    ("one_declaration.json", "foo:;"): TO_THE_END,
    ("one_declaration.json", "foo:;bar:;"): TO_THE_END,
    ("one_declaration.json", "foo: 9000  /* Dotted capital I */!İmportant"): LONE_MARK,
    ("one_declaration.json", "foo: 9000  !important!"): LONE_MARK,
}


class Outside(Exception):
    """A token that is outside our profile."""


def signs(characters):
    return [f"sign {ord(character)}" for character in characters]


def named(word, text):
    return " ".join([word, *(str(ord(character)) for character in text)])


def in_a_row(nodes):
    return [token for node in nodes for token in tokens_of(node)]


def tokens_of(node):
    """The tokens of one component value of the suite, as our program prints them."""
    if isinstance(node, str):
        return {" ": ["blank"], "<!--": ["open"], "-->": ["close"]}.get(node) or signs(node)
    kind, *rest = node
    if kind in NAMED:
        return [named(NAMED[kind], rest[0])]
    if kind in BRACKETS:
        return signs(kind[0]) + in_a_row(rest) + signs(kind[1])
    if kind == "function":
        return [named("function", rest[0])] + in_a_row(rest[1:]) + signs(")")
    if kind == "hash":
        return [named("id" if rest[1] == "id" else "hash", rest[0])]
    if kind == "number":
        return [f"integer {min(max(rest[1], COUNT_LOW), COUNT_HIGH)}" if rest[2] == "integer" else "number"]
    if kind in ("percentage", "dimension"):
        return [kind]
    if kind == "error":
        return [] if rest[0] in AT_THE_END else [rest[0]] if rest[0].startswith("bad-") else signs(rest[0])
    raise Outside(kind)


def rules(nodes):
    """The rules of the suite that have a block, as our program prints them."""
    lines = []
    for kind, *rest in nodes:
        if kind == "qualified rule":
            head, (prelude, block) = "style-rule", rest
        elif kind == "at-rule" and rest[2] is not None:
            head, (prelude, block) = named("at-rule", rest[0]), rest[1:]
        else:
            continue
        lines += [head, *in_a_row(prelude), "block", *in_a_row(block)]
    return lines


def declarations(nodes):
    """The declarations of the suite, and its errors, as our program prints them."""
    lines = []
    for kind, *rest in nodes:
        if kind == "declaration":
            name, value, is_important = rest
            lines += [named("important" if is_important else "declaration", name), *in_a_row(value)]
        elif kind == "error":
            lines.append("none")
    return lines


def one_declaration(node):
    return declarations([] if node == ["error", "empty"] else [node])


# For each file of the suite the words for our program, and how its expectations are written in our lines.
FILES = {
    "component_value_list.json": ("show-tokens", in_a_row),
    "rule_list.json": ("show-rules", rules),
    "stylesheet.json": ("show-rules", rules),
    "declaration_list.json": ("show-declarations", declarations),
    "one_declaration.json": ("show-declarations", one_declaration),
}


def without_last_brackets(lines):
    closing = signs(")]}")
    while lines and lines[-1] in closing:
        lines = lines[:-1]
    return lines


def ours(program, work, text):
    """What our program prints, without the count at its end."""
    told = subprocess.run([program, work], input=text.encode(), capture_output=True, check=True)
    return told.stdout.decode().splitlines()[:-1]


def theirs(file, text, expected):
    """The same for the suite, or nothing where the case is outside."""
    if (file, text) in OUTSIDE:
        return None
    try:
        return FILES[file][1](expected)
    except Outside:
        return None


def compare(program, folder, file):
    """Prints how the cases of the file compare, and tells whether none differs."""
    cases = json.loads((pathlib.Path(folder) / file).read_text())
    same = outside = different = 0
    for text, expected in zip(cases[::2], cases[1::2]):
        wanted = theirs(file, text, expected)
        if wanted is None:
            outside += 1
            continue
        found = ours(program, FILES[file][0], text)
        if without_last_brackets(found) == without_last_brackets(wanted):
            same += 1
        else:
            different += 1
            print(f"{text!r}:\n  ours   {found}\n  theirs {wanted}")
    print(f"{file}: {same} cases the same, {different} different, {outside} outside our profile")
    return different == 0


def main(program, folder):
    return 0 if all([compare(program, folder, file) for file in FILES]) else 1


if __name__ == "__main__":
    sys.exit(main(*sys.argv[1:]))
