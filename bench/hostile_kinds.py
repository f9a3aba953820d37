"""Kinds of large input, for the part growth of hostile.sh: the files of each at a size, what must come of them, and how
time and memory are to grow. Sizes are so that a run at twice the size takes some seconds at most, or that a file is near
its 16 MiB. What grows faster than linear says what it is the square or the product of; docs/limits.md has the reasons."""

from dataclasses import dataclass
from typing import Callable, Optional

DUMP = ("dump", "d.xhtml", "s.css")
EDIT = ("edit", "d.xhtml", "s.css", "t.txt")
HISTORY = ("history", "d.xhtml", "s.css", "t.txt", "1000")
BAKE = ("bake", "d.xhtml", "s.css")
TEXT = ("text", "d.xhtml", "s.css")
MIB = 1 << 20


@dataclass
class Kind:
    name: str
    size: int
    files: Callable[[int], dict]
    words: tuple = DUMP
    status: int = 0
    grows: str = "linear"
    check: Optional[Callable[[int, bytes], bool]] = None


def of_sheet(sheet, document="<p/>"):
    """Files with a sheet that is made, over one document."""
    return lambda size: {"d.xhtml": [document], "s.css": sheet(size)}


def of_document(document, sheet=""):
    """Files with a document that is made, under one sheet."""
    return lambda size: {"d.xhtml": document(size), "s.css": [sheet]}


def of_script(script, document="<body><p/><p/></body>", sheet=""):
    """Files with a script that is made, over one document and sheet."""
    return lambda size: {"d.xhtml": [document], "s.css": [sheet], "n.css": [sheet], "t.txt": script(size)}


def of_edit(document, script, sheet=""):
    """Files with a document that is made, under one sheet, and one script."""
    return lambda size: {"d.xhtml": document(size), "s.css": [sheet], "t.txt": [script]}


def many(part, count):
    """A part so many times, some of it at a time; a function of the place gives each part."""
    if callable(part):
        for place in range(count):
            yield part(place)
        return
    for _ in range(count // 1024):
        yield part * 1024
    yield part * (count % 1024)


def wrapped(front, part, back):
    return lambda size: chained(front, many(part, size), back)


def chained(front, parts, back):
    yield front
    yield from parts
    yield back


def nested(opening, inner, closing):
    return lambda size: chained("", [*many(opening, size), inner, *many(closing, size)], "")


def lines(count):
    """Whether the output has as many lines."""
    return lambda size, out: out.count(b"\n") == count(size)


def is_empty(_size, out):
    return out == b""


def styles(body):
    """Counter styles n0, n1, .., each with the next one's number in its body, the last with the first's."""
    return lambda size: [f"@counter-style n{k}{{{body.replace('NEXT', f'n{(k + 1) % size}')}}}" for k in range(size)]


# An element whose children have one id, to which each of them refers, and one behind it; and a sheet that follows references.
OF_ONE_ID = wrapped("<body><div>", '<a id="t" href="#t"/>', "</div><p/></body>")
COUNTED_TARGETS = "a::after{content:target-counter(attr(href),c)}"

KINDS = [
    # texts of sheets
    Kind("brackets that nothing closes", 4 * MIB, of_sheet(wrapped("p{a:", "(", "")), check=is_empty),
    Kind("braces that nothing closes", 4 * MIB, of_sheet(wrapped("p", "{", "")), check=is_empty),
    Kind("brackets that close", 1 * MIB, of_sheet(nested("([", "", "])")), check=is_empty),
    Kind("closing brackets", 3 * MIB, of_sheet(wrapped("p{a:", "])", "")), check=is_empty),
    Kind("a string that nothing closes", 8 * MIB - 16, of_sheet(wrapped('p::before{content:"', "x", "")), check=lines(lambda _: 1)),
    Kind("strings that a line ends", 2 * MIB, of_sheet(wrapped("p{a:", '"\n', "")), check=is_empty),
    Kind("a comment that nothing closes", 8 * MIB - 16, of_sheet(wrapped("/*", "*", "")), check=is_empty),
    Kind("comments", 1 * MIB, of_sheet(wrapped("", "/**/", "p{}")), check=is_empty),
    Kind("escapes in a name", 2 * MIB, of_sheet(wrapped("p{", "\\61", ":x}")), check=is_empty),
    Kind("an address that nothing closes", 8 * MIB - 16, of_sheet(wrapped("p{a:url(", "x", "")), check=is_empty),
    Kind("bad addresses", 500_000, of_sheet(wrapped("p{a:", "url(x y)", "}")), check=is_empty),
    Kind("digits", 4 * MIB, of_sheet(wrapped("p{counter-reset:c ", "9", "}p::before{content:counter(c)}")), check=lines(lambda _: 1)),
    Kind("signs", 2 * MIB, of_sheet(wrapped("p{a:", "-+", "}")), check=is_empty),
    # selectors and rules
    Kind("empty rules", 1 * MIB, of_sheet(wrapped("", "p{}", "")), check=is_empty),
    Kind("rules without a block", 4 * MIB, of_sheet(wrapped("", "p ", "")), check=is_empty),
    Kind("a rule with many declarations", 200_000, of_sheet(wrapped("p{", "counter-reset:c 1;", "}")), check=is_empty),
    Kind("rules that hold, one after the other", 100_000, of_sheet(wrapped("", 'p::before{content:"x"}', "")), check=lines(lambda _: 1)),
    Kind("rules of other elements", 100_000, of_sheet(wrapped("", lambda k: f'x{k}::before{{content:"x"}}', "")), check=is_empty),
    Kind("100,000 rules over 100 elements", 50_000, lambda size: {
        "d.xhtml": wrapped("<body>", "<p/>", "</body>")(100), "s.css": wrapped("", lambda k: f"x{k}{{counter-reset:c}}", "")(size),
    }, check=is_empty),
    Kind("a selector of many classes", 1 * MIB, of_sheet(wrapped("p", ".a", "{}")), check=is_empty),
    Kind("a selector of many joins", 1 * MIB, of_sheet(wrapped("p", ">p", "{}")), check=is_empty),
    Kind("a list of many selectors", 1 * MIB, of_sheet(wrapped("p", ",p", "{}")), check=is_empty),
    Kind("an argument of many selectors", 1 * MIB, of_sheet(wrapped(":is(p", ",p", "){}")), check=is_empty),
    Kind("arguments in arguments", 1 * MIB, of_sheet(wrapped("", ":is(", "")), check=is_empty),
    Kind("a pattern of many digits", 2 * MIB, of_sheet(wrapped(":nth-child(", "9", "n + 1){counter-reset:c}")), check=is_empty),
    Kind("a joined selector, at every depth", 200, lambda size: {
        "d.xhtml": nested("<b>", "", "</b>")(1_000), "s.css": wrapped("i ", "b ", '::before{content:"x"}')(size),
    }, grows="by the selector's length and the depth", check=is_empty),
    Kind("a value that almost stands in another", 20_000, lambda size: {
        "d.xhtml": wrapped('<p title="', "a", '"/>')(2 * size), "s.css": wrapped('[title*="', "a", 'b"]{counter-reset:c}')(size),
    }, grows="the product of both lengths", check=is_empty),
    Kind("tests of attributes, on an element with as many", 2_000, lambda size: {
        "d.xhtml": wrapped("<p", lambda k: f' a{k}=""', "/>")(size), "s.css": wrapped("", "[b]{counter-reset:c}", "")(size),
    }, grows="tests by attributes", check=is_empty),
    Kind("tests of classes, on an element with as many", 2_000, lambda size: {
        "d.xhtml": wrapped('<p class="', "a ", '"/>')(size), "s.css": wrapped("", ":is(.b){counter-reset:c}", "")(size),
    }, grows="tests by classes", check=is_empty),
    # Rules are filed by the class that they ask for, so an element without it looks at none of them.
    Kind("rules for a class, over an element with as many others", 50_000, lambda size: {
        "d.xhtml": wrapped('<p class="', "a ", '"/>')(size), "s.css": wrapped("", ".b{counter-reset:c}", "")(size),
    }, check=is_empty),
    # counters and their styles
    Kind("counters of one element", 50_000, of_sheet(wrapped("p{counter-reset:", lambda k: f" c{k}", "}")), check=is_empty),
    Kind("increments of one element", 50_000, of_sheet(wrapped("p{counter-increment:", lambda k: f" c{k}", "}")), check=is_empty),
    Kind("counters that one element sets", 50_000, of_sheet(wrapped("p{counter-set:", lambda k: f" c{k}", "}")), check=is_empty),
    Kind("resets of one counter in one value", 200_000, of_sheet(wrapped("p{counter-reset:", " c", "}")), check=is_empty),
    Kind("increments of one counter in one value", 200_000, of_sheet(wrapped("p{counter-increment:", " c", "}")), check=is_empty),
    Kind("reversed counters of one element", 100_000, of_sheet(wrapped("p{counter-reset:", lambda k: f" reversed(c{k})", "}")), check=is_empty),
    # The start of each is told alone, by all that the element does.
    Kind("reversed counters that their element increments", 2_000, of_sheet(lambda size: [
        "p{counter-reset:", *many(lambda k: f" reversed(c{k})", size), ";counter-increment:", *many(lambda k: f" c{k}", size), "}",
    ]), grows="the square of the counters", check=is_empty),
    Kind("counter styles that items name", 50_000, lambda size: {
        "d.xhtml": wrapped("<ol>", "<li/>", "</ol>")(size),
        "s.css": chained("li{list-style:z}", many(lambda k: f'@counter-style n{k}{{symbols:"x"}}', size), '@counter-style z{symbols:"y"}'),
    }, check=lines(lambda size: size)),
    Kind("counter styles", 50_000, of_sheet(wrapped("", lambda k: f'@counter-style n{k}{{symbols:"x"}}', "")), check=is_empty),
    Kind("a counter style over and over", 50_000, of_sheet(wrapped("", '@counter-style n{symbols:"x"}', "")), check=is_empty),
    Kind("counter styles that extend each other", 20_000, of_sheet(styles("system:extends NEXT")), ("table", "s.css", "n0", "7", "7"),
         check=lambda _size, out: out == b'7 "7"\n'),
    Kind("counter styles that fall back on each other", 50_000, of_sheet(styles('system:fixed;symbols:"x";fallback:NEXT')),
         ("table", "s.css", "n0", "2", "2"), check=lambda _size, out: out == b'2 "2"\n'),
    Kind("counter styles that fall back on each other, for each of 100 items", 5_000, lambda size: {
        "d.xhtml": wrapped("<ol>", "<li/>", "</ol>")(100), "s.css": ["li{list-style:n0}", *styles('system:fixed;symbols:"x";fallback:NEXT')(size)],
    }, check=lines(lambda _: 100)),
    Kind("a ring of two counter styles among many, for each item", 1_000, lambda size: {
        "d.xhtml": wrapped("<ol>", "<li/>", "</ol>")(size),
        "s.css": [
            "li{list-style:a}", *(f'@counter-style {name}{{system:fixed;symbols:"x";fallback:{other}}}' for name, other in ("ab", "ba")),
            *many(lambda k: f'@counter-style n{k}{{symbols:"x"}}', size),
        ],
    }, grows="items by styles", check=lines(lambda size: size)),
    Kind("counter styles that extend one of many symbols", 500, of_sheet(lambda size: [
        "@counter-style z{symbols:", *many('"x" ', size), "}", *many(lambda k: f"@counter-style n{k}{{system:extends z}}", size),
    ]), ("table", "s.css", "n0", "2", "2"), grows="styles by symbols", check=lambda _size, out: out == b'2 "x"\n'),
    # The fallback writes each number, since none is as long.
    Kind("padding of 2,147,483,647", 50_000, of_document(
        wrapped("<ol>", "<li/>", "</ol>"), '@counter-style z{system:numeric;symbols:"0" "1";pad:2147483647 "x"}li{list-style:z}'),
        check=lambda size, out: out.endswith(f'/{size - 1} marker "{size}. "\n'.encode())),
    Kind("a style of many symbols", 1 * MIB, of_sheet(wrapped("@counter-style z{system:cyclic;symbols:", "a ", "}")),
         ("table", "s.css", "z", "5", "5"), check=lambda _size, out: out == b'5 "a"\n'),
    Kind("a style of many weights", 100_000, of_sheet(lambda size: chained(
        "@counter-style z{system:additive;additive-symbols:", (f'{size - k} "a",' for k in range(size)), '0 "b"}')),
        ("table", "s.css", "z", "5", "5"), check=lambda _size, out: out == b'5 "a"\n'),
    Kind("a style of many weights, for each item", 3_000, lambda size: {
        "d.xhtml": wrapped("<ol>", "<li/>", "</ol>")(size),
        "s.css": chained("li{list-style:z}@counter-style z{system:additive;additive-symbols:", (f'{size - k} "a",' for k in range(size)), '0 "b"}'),
    }, grows="items by weights", check=lines(lambda size: size)),
    Kind("a symbol of many characters, for each item", 5_000, lambda size: {
        "d.xhtml": wrapped("<ol>", "<li/>", "</ol>")(size),
        "s.css": wrapped('li{list-style:z}@counter-style z{system:cyclic;symbols:"', "a", '"}')(size),
    }, grows="items by characters", check=lines(lambda size: size)),
    Kind("a symbol of many characters", 4 * MIB, of_sheet(wrapped('@counter-style z{system:cyclic;symbols:"', "a", '"}')),
         ("table", "s.css", "z", "5", "5"), check=lambda _size, out: out == b'5 "5"\n'),
    Kind("a symbol of one character and many marks", 2 * MIB, of_sheet(wrapped('@counter-style z{system:cyclic;pad:3 "x";symbols:"a', "\u0301", '"}')),
         ("table", "s.css", "z", "5", "5"), check=lambda _size, out: out == b'5 "5"\n'),
    Kind("quotes of many pairs", 500_000, of_sheet(wrapped("p{quotes:", '"a" "b" ', "}p::before{content:open-quote}")), check=lines(lambda _: 1)),
    Kind("quotes of many pairs, which as many elements inherit", 500, lambda size: {
        "d.xhtml": wrapped("<body>", "<p/>", "</body>")(size), "s.css": wrapped("body{quotes:", '"a" "b" ', "}")(size),
    }, grows="elements by pairs", check=is_empty),
    Kind("content of many items", 200_000, of_sheet(wrapped("p::before{content:", "counter(c)", "}")), check=lines(lambda _: 1)),
    # documents
    Kind("nested elements", 100_000, of_document(nested("<b>", "", "</b>")), check=is_empty),
    Kind("nested elements that nothing closes", 1 * MIB, of_document(wrapped("", "<b>", "")), status=6, check=is_empty),
    Kind("elements beside each other", 100_000, of_document(wrapped("<body>", "<p/>", "</body>")), check=is_empty),
    Kind("items beside each other", 100_000, of_document(wrapped("<ol>", "<li/>", "</ol>")), check=lines(lambda size: size)),
    # 16 MiB have 1.4 million at most, since no two may have one name.
    Kind("attributes of one element", 100_000, of_document(wrapped("<p", lambda k: f' a{k}=""', "/>")), check=is_empty),
    Kind("an attribute twice, at the end", 100_000, of_document(wrapped("<p", lambda k: f' a{k}=""', ' a0=""/>')), status=6, check=is_empty),
    Kind("a name of many characters", 4 * MIB, of_document(wrapped("<", "a", "/>")), check=is_empty),
    Kind("a value of many characters", 4 * MIB, of_document(wrapped('<p title="', "a", '"/>'), "p::before{content:attr(title)}"), check=lines(lambda _: 1)),
    Kind("a class of many words", 1 * MIB, of_document(wrapped('<p class="', "a ", '"/>'), ".b::before,p:not(.b)::after{content:'x'}"), check=lines(lambda _: 1)),
    Kind("references", 1 * MIB, of_document(wrapped("<p>", "&amp;", "</p>")), check=is_empty),
    Kind("sections of characters", 500_000, of_document(wrapped("<p>", "<![CDATA[]]>", "</p>")), check=is_empty),
    Kind("comments that nothing closes", 4 * MIB, of_document(wrapped("<p><!--", "-", "")), status=6, check=is_empty),
    Kind("line feeds before a fault", 4 * MIB, of_document(wrapped("<p>", "\n", "&")), status=6, check=is_empty),
    Kind("carriage returns", 4 * MIB, of_document(wrapped("<p>", "\r", "</p>")), check=is_empty),
    Kind("style elements without rules", 50_000, of_document(wrapped("<body>", "<style>/**/</style>", "</body>")), check=is_empty),
    # Their texts are one sheet, whose rules are filed by the name that they ask for; no element here has it.
    Kind("style elements with a rule each", 50_000, of_document(wrapped("<body>", "<style>p{}</style>", "</body>")), check=is_empty),
    Kind("style elements in each other", 3_000, of_document(nested("<style>", "p{}", "</style>")),
         grows="the square of the depth", check=is_empty),
    Kind("style attributes", 50_000, of_document(wrapped("<body>", '<p style="counter-reset:c"/>', "</body>")), check=is_empty),
    # selectors over documents
    Kind(":nth-child over siblings", 100_000, of_document(wrapped("<body>", "<p/>", "</body>"), "p:nth-child(2n){list-style:none}"), check=is_empty),
    Kind(":nth-last-child over siblings", 100_000, of_document(wrapped("<body>", "<p/>", "</body>"), "p:nth-last-child(2n){list-style:none}"),
         check=is_empty),
    Kind(":only-child over siblings", 100_000, of_document(wrapped("<body>", "<p/>", "</body>"), "p:only-child{list-style:none}"), check=is_empty),
    Kind(":last-child over siblings", 100_000, of_document(wrapped("<body>", "<p/>", "</body>"), "p:last-child{list-style:none}"), check=is_empty),
    Kind(":first-of-type over siblings", 100_000, of_document(wrapped("<body>", "<p/>", "</body>"), "p:first-of-type{list-style:none}"),
         check=is_empty),
    Kind(":nth-last-of-type over a name each", 100_000, of_document(wrapped("<body>", lambda k: f"<p{k}/>", "</body>"), ":nth-last-of-type(2){list-style:none}"),
         check=is_empty),
    Kind("positions of rows and cells", 30_000, of_document(wrapped("<table>", "<tr><td/><th/><td/></tr>", "</table>"), "tr:nth-child(even) td:nth-of-type(2)::before{content:'x'}"),
         check=lines(lambda size: size // 2)),
    Kind("later siblings of what isn't there", 40_000, of_document(wrapped("<body>", "<p/>", "</body>"), "i~p{list-style:none}"), check=is_empty),
    Kind("later siblings of the first", 40_000, of_document(wrapped("<body><i/>", "<p/>", "</body>"), "i~p::before{content:'x'}"), check=lines(lambda size: size)),
    Kind("later siblings of what isn't there, in a row at each depth", 1_000, of_document(nested("<b>" + "<i/>" * 40, "", "</b>"), "u~i~b b~b{list-style:none}"), check=is_empty),
    Kind("next siblings", 100_000, of_document(wrapped("<body>", "<p/>", "</body>"), "i+p{list-style:none}"), check=is_empty),
    Kind("descendants of what isn't there", 40_000, of_document(nested("<b>", "", "</b>"), "i b{list-style:none}"), check=is_empty),
    Kind("descendants of the root", 40_000, of_document(nested("<b>", "", "</b>"), "b:root b{list-style:none}"), check=is_empty),
    Kind("lists at the bottom of a deep tree, by the user agent's sheet", 20_000, of_document(
        lambda size: [*many("<b>", size), *many("<ul/>", size), *many("</b>", size)]), check=is_empty),
    Kind("children", 100_000, of_document(nested("<b>", "", "</b>"), "i>b{list-style:none}"), check=is_empty),
    Kind(":empty and :root", 100_000, of_document(wrapped("<body>", "<p>a</p>", "</body>"), ":empty,:root{list-style:none}"), check=is_empty),
    # counters, quotes and references over documents
    Kind("counters of siblings", 100_000, of_document(wrapped("<body>", "<p/>", "</body>"), "p{counter-increment:c}p::before{content:counter(c)}"),
         check=lines(lambda size: size)),
    Kind("a counter reset at every depth", 500, of_document(nested("<b>", "", "</b>"), "b{counter-reset:c}"),
         grows="the square of the depth", check=is_empty),
    Kind("counters() at every depth", 500, of_document(nested("<b>", "", "</b>"), 'b{counter-reset:c}b::before{content:counters(c,".")}'),
         grows="the square of the depth", check=lines(lambda size: size)),
    Kind("counters of the root, at every element", 1_000, lambda size: {
        "d.xhtml": wrapped("<body>", "<p/>", "</body>")(1_000), "s.css": wrapped("body{counter-reset:", lambda k: f" c{k}", "}")(size),
    }, grows="by counters and elements", check=is_empty),
    Kind("counters of the root and of its first child, at every element", 250, lambda size: {
        "d.xhtml": wrapped("<body><i/>", "<p/>", "</body>")(2_000),
        "s.css": ["body{counter-reset:", *many(lambda k: f" c{k}", size), "}i{counter-reset:", *many(lambda k: f" d{k}", size), "}"],
    }, check=is_empty),
    Kind("counters that every element increments", 200, lambda size: {
        "d.xhtml": wrapped("<body>", "<p/>", "</body>")(1_000), "s.css": wrapped("p{counter-increment:", lambda k: f" c{k}", "}")(size),
    }, check=is_empty),
    Kind("counters that every element resets, which the root resets too", 100, lambda size: {
        "d.xhtml": wrapped("<body>", "<p/>", "</body>")(1_000), "s.css": wrapped("body,p{counter-reset:", lambda k: f" c{k}", "}")(size),
    }, check=is_empty),
    Kind("nested quotes", 1_000, of_document(nested("<q>", "", "</q>")), grows="the output is the square of the depth", check=lines(lambda size: 2 * size)),
    Kind("reversed lists in each other", 250, of_document(nested('<ol reversed="">', "<li/>", "</ol>")), grows="the square of the depth", check=lines(lambda _: 1)),
    Kind("reversed lists beside each other", 20_000, of_document(wrapped("<body>", '<ol reversed=""><li/></ol>', "</body>")), check=lines(lambda size: size)),
    Kind("references to one element", 50_000, of_document(wrapped('<body><h1 id="t"/>', '<a href="#t"/>', "</body>"), "a::after{content:target-counter(attr(href),c)}"),
         check=lines(lambda size: size)),
    Kind("references to nothing", 50_000, of_document(wrapped("<body>", '<a href="#t"/>', "</body>"), "a::after{content:target-counter(attr(href),c)}"),
         check=lines(lambda size: size)),
    # The first holders of all ids are found by one walk over the document.
    Kind("elements of one id, each referred to", 50_000, of_document(wrapped("<body>", '<a id="t" href="#t"/>', "</body>"), "a::after{content:target-counter(attr(href),c)}"),
         check=lines(lambda size: size)),
    Kind("a ring of references", 50_000, of_document(
        lambda size: ["<body>", *(f'<a id="a{k}" href="#a{(k + 1) % size}"/>' for k in range(size)), "</body>"],
        'a::after{content:"x"target-text(attr(href),after)}'), check=lines(lambda size: size)),
    Kind("references to one text of 1,000 characters", 2_000, of_document(
        wrapped(f'<body><h1 id="t">{"x" * 1_000}</h1>', '<a href="#t"/>', "</body>"), "a::after{content:target-text(attr(href))}"), check=lines(lambda size: size)),
    Kind("a string of the sheet, at every element", 2_000, lambda size: {
        "d.xhtml": wrapped("<body>", "<p/>", "</body>")(size), "s.css": wrapped('p::before{content:"', "x", '"}')(size),
    }, grows="the output is the string by the elements", check=lines(lambda size: size)),
    # other commands than dump and edit
    Kind("items whose numbers are baked", 50_000, of_document(wrapped("<ol>", "<li/>", "</ol>")), BAKE,
         check=lambda size, out: out.count(b'<span class="baked-marker">') == size),
    Kind("nested quotes, as a line of text", 50_000, of_document(nested("<q>", "", "</q>")), TEXT, check=lambda size, out: len(out) == 6 * size + 1),
    Kind("why, of what stands behind counted siblings", 50_000, of_document(
        wrapped("<body><div>", "<p/>", "</div><h1/></body>"), "body{counter-reset:c}p{counter-increment:c}"), ("why", "d.xhtml", "s.css", "/1"),
        check=lambda size, out: out.endswith(f'counter "c" / element {size}\n'.encode())),
    Kind("edits that are undone", 5_000, of_script(wrapped("", "remove /0\nundo\n", "")), HISTORY, check=is_empty),
    # scripts
    Kind("a script of moves", 5_000, of_script(wrapped("", "move /0 / 1\n", "")), EDIT, check=is_empty),
    Kind("a script of refused edits", 100_000, of_script(wrapped("", "remove /9\n", "")), EDIT, check=lines(lambda size: size)),
    Kind("a script of sheets", 2_000, of_script(wrapped("", "sheet n.css\n", "")), EDIT, check=is_empty),
    Kind("a script of shows", 50_000, of_script(wrapped("", "show\n", "")), EDIT, check=lines(lambda size: 2 * size)),
    Kind("a script of comments", 1 * MIB, of_script(wrapped("", "#\n", "")), EDIT, check=is_empty),
    Kind("a path of many positions", 1 * MIB, of_script(wrapped("remove ", "/0", "\n")), EDIT, check=lines(lambda _: 1)),
    Kind("an attribute set again and again", 5_000, of_script(wrapped("", lambda k: f"set /0 a {k}\n", "")), EDIT, check=is_empty),
    Kind("attributes that come, one after the other", 2_000, of_script(wrapped("", lambda k: f"set /0 a{k} x\n", "")), EDIT,
         grows="the square of the edits, each over a larger element", check=is_empty),
    # The siblings are handed what they were handed before, so each edit evaluates the new element and what it stands in.
    Kind("elements that come at the end, one after the other", 5_000, of_script(wrapped("", lambda k: f"insert / {k + 2} <p/>\n", "")), EDIT,
         check=is_empty),
    Kind("elements that come at the beginning, one after the other", 5_000, of_script(wrapped("", "insert / 0 <p/>\n", "")), EDIT,
         grows="the square of the edits, each of which changes the places of all siblings behind", check=is_empty),
    # Each id is looked up once before the edit and twice at most after it, however many have it and refer to it.
    Kind("elements of one id that go at once", 50_000, of_edit(OF_ONE_ID, "remove /0\n", COUNTED_TARGETS), EDIT, check=is_empty),
    Kind("elements of one id that come at once", 50_000, of_script(
        wrapped("insert / 0 <div>", '<a id="t" href="#t"/>', "</div>\n"), '<body><a href="#t"/></body>', COUNTED_TARGETS), EDIT, check=is_empty),
    Kind("elements of one id that move at once", 50_000, of_edit(OF_ONE_ID, "move /0 / 1\n", COUNTED_TARGETS), EDIT, check=is_empty),
    # How deep an element stands is counted for each that has the id.
    Kind("elements of one id in each other, of which one is edited", 2_000, of_edit(nested('<b id="t">', "", "</b>"), "set /0 title x\n"),
         EDIT, grows="the square of the depth", check=is_empty),
]

# Linear too, and yet not for a run at the most that a file may have: some take tens of GiB, and others many minutes.
TOO_LARGE = {
    "100,000 rules over 100 elements", "counter styles that items name", "items beside each other", "padding of 2,147,483,647",
    "style elements without rules", "style elements with a rule each", "style attributes",
    "later siblings of what isn't there", "later siblings of the first", "later siblings of what isn't there, in a row at each depth",
    "descendants of what isn't there", "descendants of the root", "lists at the bottom of a deep tree, by the user agent's sheet",
    "next siblings", "children", ":empty and :root", "counters of siblings", "reversed lists beside each other",
    "references to one element", "references to nothing", "elements of one id, each referred to", "a ring of references",
    "references to one text of 1,000 characters", "items whose numbers are baked", "nested quotes, as a line of text",
    "why, of what stands behind counted siblings", "edits that are undone", "a script of sheets", "a script of shows",
    "elements that come at the end, one after the other", "counters of the root and of its first child, at every element",
    "elements of one id that go at once", "elements of one id that come at once", "elements of one id that move at once",
    "counters that every element increments", "counters that every element resets, which the root resets too",
}
LARGEST = [kind for kind in KINDS if kind.grows == "linear" and kind.name not in TOO_LARGE]


def longest_file(kind, size):
    """How many bytes the longest of its files has."""
    lengths = []
    for parts in kind.files(size).values():
        lengths.append(sum(len(part if isinstance(part, bytes) else part.encode()) for part in parts))
    return max(lengths)


def largest_size(kind, most):
    """A size at which no file of this kind has more than so many bytes, and the longest few less."""
    length = longest_file(kind, 1_000)
    size = 1_000 * most // (length - longest_file(kind, 0))
    while (length := longest_file(kind, size)) > most:
        size = min(size * most // length, size - 1)
    return size
