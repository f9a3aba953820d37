"""What the parts of a dump take, by valgrind: see parts.sh, which calls it."""

import re
import subprocess
import sys

import prose_pages
import section_pages

# What stands for each part: functions of it that are not inlined, called by each other from the right to the left. Of those
# that fit the first here counts.
MEMORY = {
    "the text of the file": "fetch_text",
    "the list of what is told": "Catching::tell",
    "what is told: boxes, counters": "fresh::told_of",
    "what references need": "named_|NamedElements|flat_texts|by_key",
    "the index of ids and references": "index_with",
    "what is kept: entries, texts": "kept_of|BoxPieces",
    "the slots of the board": "Vec::grow[^ ]* marker_engine::engine::Engine::start",
    "the document under keys": "add_tree|copied_node|rattle_alloc marker_engine::engine::Engine::start",
}
INSTRUCTIONS = {
    "reading the document": "xhtml_reader::read::read",
    "the document under keys": "node_arena::add_tree::add_tree",
    "styles": "mini_cascade::style_of::style_of",
    "of these, rules and selectors": "mini_cascade::applicable::add_sheet",
    "boxes, to the children": "box_eval::element::eval_element",
    "of these, inherited counters": "counter_sets::counter_set::CounterSet::inherit",
    "boxes, behind the children": "document_walk::catching::Catching::leave",
    "the index of ids and references": "dirty_walk::index::index_with",
    "what is kept, with its texts": "kept_elements::node_texts::kept_of",
    "writing": "marker_cli::show::show",
    "letting go of all": "marker_engine::engine::Engine::drop",
}


def run(*words):
    return subprocess.run(words, check=True, stdout=subprocess.PIPE, stderr=subprocess.DEVNULL, text=True).stdout


def peak_parts(program, words):
    """The bytes of each part at the peak of a run, by massif."""
    options = ("--depth=30", "--threshold=0.05", "--peak-inaccuracy=0.2", "--detailed-freq=1")
    run("valgrind", "--tool=massif", "--massif-out-file=massif.out", *options, program, *words)
    (peak,) = (it for it in open("massif.out").read().split("snapshot=") if "heap_tree=peak" in it)
    lines = iter(re.findall(r"^ *n(\d+): (\d+) (?:0x[0-9A-F]+: )?(.*)$", peak, re.M))
    parts = {"beside the blocks, for malloc": int(re.search(r"mem_heap_extra_B=(\d+)", peak)[1])}

    def add(path):
        count, held, name = next(lines)
        path += " " + name.partition(" (in ")[0]
        own = int(held) - sum(add(path) for _ in range(int(count)))
        part = next((part for part, names in MEMORY.items() if re.search(names, path)), "all else")
        parts[part] = parts.get(part, 0) + own
        return int(held)

    add("")
    return parts


def instructions(*words):
    """All instructions of a run, and those of each function with what it calls, by callgrind."""
    run("valgrind", "--tool=callgrind", "--callgrind-out-file=callgrind.out", *words)
    told = run("callgrind_annotate", "--inclusive=yes", "--threshold=100", "callgrind.out")
    found = re.findall(r"^ *([\d,]+) +\([ \d.]+%\)\s+(?:\S*?:)?(\S.*)$", told, re.M)
    counts = [(int(count.replace(",", "")), name) for count, name in found]
    return counts[0][0], counts[1:]


def show(program, name, document, sheet):
    with open("document.xhtml", "w") as file:
        file.write(document)
    with open("sheet.css", "w") as file:
        file.write(sheet)
    words, length = ("dump", "document.xhtml", "sheet.css"), len(document.encode())
    parts = peak_parts(program, words)
    print(f"{name}, {length} bytes: {sum(parts.values()) / length:.1f} bytes of memory a byte")
    for part, held in sorted(parts.items(), key=lambda it: -it[1]):
        print(f"  {held / length:7.2f} {part}")
    whole, counts = instructions(program, *words)
    parsing, _ = instructions("xmllint", "--huge", "--noout", "document.xhtml")
    print(f"{name}: {whole / parsing:.1f} times the instructions of xmllint --noout")
    for part, function in INSTRUCTIONS.items():
        taken = next((count for count, at in counts if re.search(rf"(^|:){function}(::<|'| |$)", at)), None)
        print(f"  {'      -' if taken is None else f'{taken / parsing:7.2f}'} {part}", flush=True)


program, elements = sys.argv[1], int(sys.argv[2])
show(program, "prose", prose_pages.document(elements * 100), prose_pages.SHEET)
show(program, "sections", section_pages.document(elements), section_pages.SHEET)
