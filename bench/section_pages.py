"""Documents of sections with a heading, a list and a reference each, and their sheet, also without the references, for the
scripts beside this file."""

PLAIN = (
    'body{counter-reset:s}section{counter-increment:s;counter-reset:i}li{counter-increment:i list-item}'
    'h2::before{content:counter(s)". "}li::before{content:counters(i,".")}'
)
SHEET = PLAIN + 'a::after{content:"("target-counter(attr(href),s)")"}'


def document(elements):
    sections = elements // 8
    return "<body>" + "".join(
        f'<section id="s{k}"><h2>{k}</h2><ol><li/><li/><li/></ol><p><a href="#s{k * 7919 % sections}"/></p></section>'
        for k in range(sections)
    ) + "</body>"


def write_files(elements):
    """Writes `document.xhtml`, of about so many elements, and `sheet.css`."""
    with open("document.xhtml", "w") as file:
        file.write(document(elements))
    with open("sheet.css", "w") as file:
        file.write(SHEET)
