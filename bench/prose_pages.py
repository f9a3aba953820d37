"""A made-up book and its sheet: sections of paragraphs of 400 to 800 characters, with notes, links, quotations, figures and
lists, for the scripts beside this file."""

import random

WORDS = "the of and to in that it is was he for as with his on be at by had not are but from or have which one you were all".split()
SHEET = (
    '@counter-style stars{system:cyclic;symbols:"*" "†" "‡"}body{counter-reset:chapter figure}'
    'body>section{counter-increment:chapter;counter-reset:part note}section>section{counter-increment:part}'
    'h1::before{content:counter(chapter,upper-roman)". "}h2::before{content:counter(chapter)"."counter(part)" "}'
    'figure{counter-increment:figure}figcaption::before{content:"Figure "counter(figure)": "}'
    '.note{counter-increment:note}.note::before{content:"["counter(note,stars)"] "}'
    'a::after{content:" ("target-counter(attr(href),chapter)"."target-counter(attr(href),part)")"}'
    'q::before{content:open-quote}q::after{content:close-quote}'
)


def document(length, seed=1):
    """A book of at least so many bytes."""
    chance, ids, parts = random.Random(seed), ["0-0"], ["<html><body>\n"]
    have, chapter = 0, 0

    def words(count):
        return " ".join(chance.choice(WORDS) for _ in range(count))

    def paragraph():
        more = (
            f"<em>{words(3)}</em>",
            f'see <a href="#{chance.choice(ids)}">{words(2)}</a>',
            f"<q>{words(10)}</q>",
            f'<span class="note">{words(15)}</span>',
        )
        return f"<p>{words(chance.randint(55, 110))} {chance.choice(more)} {words(chance.randint(55, 110))}.</p>\n"

    def part(name):
        ids.append(name)
        yield f'<section id="{name}"><h2>{words(6)}</h2>\n'
        for _ in range(chance.randint(6, 14)):
            yield paragraph()
        if chance.random() < 0.4:
            yield f'<figure><img src="{name}.png"/><figcaption>{words(15)}</figcaption></figure>\n'
        if chance.random() < 0.3:
            yield "<ol>" + "".join(f"<li>{words(chance.randint(10, 30))}</li>\n" for _ in range(5)) + "</ol>\n"
        yield "</section>\n"

    while have < length:
        written = [f"<section><h1>{words(6)}</h1>\n"]
        for k in range(chance.randint(4, 8)):
            written += part(f"{chapter}-{k}")
        parts += [*written, "</section>\n"]
        have += sum(map(len, written))
        chapter += 1
    return "".join([*parts, "</body></html>"])
