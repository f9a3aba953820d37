"""The examples of README and docs/, as cases for tests/run. These fenced blocks make one:

    sh              a call `./marker WORDS`, as it is written at the top of the repository; behind `cd FOLDER &&` it is
                    called in that folder
    xml, css        a document, and a sheet for it (an empty one where there is none); they hold until the next ones
    xml NAME        a document of a book
    script          edits of them
    history DEPTH   edits of them, which may be undone
    book            edits of the documents of the book

and then the block `dump`, with what is printed, or `lines`, with the text view of the document, or `baked`, with the document
and its generated texts in it, or with what the call prints. With a call in a folder, each other block whose kind has a name
shows the file of that name there.
Each row of the tables that `TABLES` names makes one too, and the table of statuses says which form the line of each status
has.
"""

import re
import shlex

from rows import Case, files_of

BLOCK = re.compile(r"^```(\w+(?: \S+)?)\n(.*?)^```$", re.MULTILINE | re.DOTALL)
CALL_IN_FOLDER = re.compile(r"cd (\S+) && (?:\.\./)+marker (.*)\n")
# Which command prints what a block of this kind has.
COMMANDS = {"dump": "dump", "lines": "text", "baked": "bake"}
LIST = "<ol><li>a</li><li>b</li></ol>"


def examples(here):
    pages = [here / "README.md", *sorted((here / "docs").glob("*.md"))]
    return [it for page in pages for it in examples_of(here, page.name, page.read_text())]


def examples_of(here, page, text):
    found, parts, is_shown = [], {}, False
    for block in BLOCK.finditer(text):
        kind, body = block.groups()
        if kind in COMMANDS:
            name = f"{page}, line {text.count(chr(10), 0, block.start()) + 1}"
            found.append(example_of(here, name, COMMANDS[kind], parts, body, f"{page}-{len(found)}"))
            parts = {kind: body for kind, body in parts.items() if kind in ("sh", "xml", "css")}
            is_shown = True
        elif kind in ("xml", "sh") or (is_shown and kind.startswith("xml ")):
            parts, is_shown = {kind: body}, False
        else:
            parts[kind] = body
    return found


def example_of(here, name, command, parts, output, stem):
    """The case that these blocks make; its files are named after its page and its place there, or as the blocks say."""
    if "sh" in parts and parts["sh"].startswith("cd "):
        return example_in_folder(here, name, parts, output)
    if "sh" in parts:
        program, *words = shlex.split(parts["sh"])
        assert program == "./marker", name
        return Case(name, words, output=output)
    if "book" in parts:
        documents = {kind.removeprefix("xml "): body.strip() for kind, body in parts.items() if kind.startswith("xml ")}
        files = {f"{stem}.css": parts.get("css", ""), f"{stem}.txt": parts["book"]}
        return Case(name, ["book", *files, *documents], output=output, files=files | documents)
    files = {f"{stem}.xhtml": parts["xml"].strip(), f"{stem}.css": parts.get("css", "")}
    words = [command, *files]
    if command == "bake":
        output = output.removesuffix("\n")
    if "script" in parts:
        files[f"{stem}.txt"] = parts["script"]
        words = ["edit", *files]
    for kind in parts:
        if kind.startswith("history "):
            files[f"{stem}.txt"] = parts[kind]
            words = ["history", *files, kind.removeprefix("history ")]
    return Case(name, words, output=output, files=files)


def example_in_folder(here, name, parts, output):
    """A call in a folder. It is made where copies of the folder's files are."""
    folder, words = CALL_IN_FOLDER.fullmatch(parts["sh"]).groups()
    for kind, body in parts.items():
        shown = kind.partition(" ")[2]
        assert not shown or (here / folder / shown).read_text() == body, f"{name}: {shown} is not as it is in {folder}"
    return Case(name, shlex.split(words), output=output, files=files_of(here / folder))


# Rows of tables. Each of these functions makes the cases of one row, from its cells; the names of their files begin
# with `stem`, which no other row has.


def represented(name, stem, descriptors, number, text, _why):
    """A number in a counter style with these descriptors."""
    files = {f"{stem}.css": f"@counter-style row {{ {code(descriptors)} }}"}
    yield Case(name, ["table", *files, "row", number, number], output=f'{number} "{code(text)}"\n', files=files)


def first_marker(name, stem, style, text):
    """The marker of an item in a list of this style."""
    files = {f"{stem}.xhtml": f'<ol style="list-style-type: {code(style)}"><li/></ol>', f"{stem}.css": ""}
    yield Case(name, ["dump", *files], output=f'/0 marker "{code(text)}"\n', files=files)


def digits(name, stem, *cells):
    """The ten digits of each of these styles, whose cell has the first of them beside it."""
    files = {f"{stem}.css": ""}
    for styles, first in zip(cells[::2], cells[1::2]):
        for style in re.findall("`(.*?)`", styles):
            lines = (f'{digit} "{chr(int(first[2:], 16) + digit)}"\n' for digit in range(10))
            yield Case(f"{name}, {style}", ["table", *files, style, "0", "9"], output="".join(lines), files=files)


def fault(name, stem, text, place, _why):
    """The place at which a text fails as a document."""
    files = {f"{stem}.xhtml": code(text), f"{stem}.css": ""}
    line = f"marker: {stem}.xhtml:{place}: not well-formed\n"
    yield Case(name, ["dump", *files], 6, line=line, files=files)


def baked(name, stem, document, sheet, text):
    """A document with its generated texts put in."""
    files = {f"{stem}.xhtml": code(document), f"{stem}.css": code(sheet) if "`" in sheet else ""}
    yield Case(name, ["bake", *files], output=code(text), files=files)


def script_line(name, stem, line, reading):
    """Whether a line is a command; what the command does is not asked for."""
    files = {f"{stem}.xhtml": LIST, f"{stem}.css": "", f"{stem}.txt": code(line)}
    is_bad = reading.startswith("bad: ")
    yield Case(name, ["edit", *files], *((7, "", f"marker: {stem}.txt:1: bad line\n") if is_bad else ()), files=files)


def answered(name, stem, document, edit, answer):
    """Whether an edit is refused, and why; what becomes of the document is not asked for."""
    files = {f"{stem}.xhtml": code(document), f"{stem}.css": "", f"{stem}.txt": edit.replace("`", "")}
    refused = {"NoPlace": "refused 1 no-place\n", "IntoItself": "refused 1 into-itself\n"}
    yield Case(name, ["edit", *files], output=refused.get(answer.partition(":")[0], ""), files=files)


# The page, the heads of the columns, and what makes cases of a row.
TABLES = (
    ("bake.md", "| Document | Sheet | Baked |", baked),
    ("counter-styles.md", "| Descriptors | Number | Text | Why |", represented),
    ("counter-styles.md", "| `list-style-type` | Marker of the first item |", first_marker),
    ("counter-styles.md", "| Style | From | Style | From | Style | From |", digits),
    ("documents.md", "| Text | Place | Why |", fault),
    ("edits.md", "| Document | Edit | Answer |", answered),
    ("scripts.md", "| Line | Read as |", script_line),
)


def table_rows(here):
    """The cases of all these tables; a row that cannot be read as one is an error."""
    return [it for page, head, cases_of in TABLES for it in cases_of_table(here / "docs" / page, head, cases_of)]


def cases_of_table(page, head, cases_of):
    for number, cells in rows_below(page, head):
        yield from cases_of(f"{page.name}, line {number}", f"{page.name}-row-{number}", *cells)


def rows_below(page, head):
    """The rows of the one table with this head, each with the number of its line. A cell `the same` has what the cell
    above it has."""
    lines = page.read_text().splitlines()
    [start] = [place for place, line in enumerate(lines) if line == head]
    above = [""] * (head.count("|") - 1)
    for number, line in enumerate(lines[start + 2 :], start + 3):
        if not line.startswith("|"):
            return
        cells = [cell.strip() for cell in line[1:-1].split("|")]
        above = [old if cell == "the same" else cell for old, cell in zip(above, cells, strict=True)]
        yield number, above


def code(cell):
    """What a cell has between its first backticks."""
    return re.search("`(.*?)`", cell)[1]


def forms_of_lines(here):
    """Which lines each status may have on standard error, by the table of statuses."""
    head = "| Status | Name | When | Line on standard error |"
    rows = rows_below(here / "docs/command-line.md", head)
    return {int(status): form_of_line(line) for _, (status, _name, _when, line) in rows}


def form_of_line(cell):
    if cell == "none":
        return re.compile("")
    form = re.sub("NAME", ".+", re.escape(code(cell)))
    form = re.sub("LINE|COLUMN|NUMBER|OFFSET|COUNT", "[0-9]+", form)
    return re.compile(form + (".+\n" if cell.endswith(" forms") else "\n"))
