"""The sentences of a document in Markdown, with their words. `columns` imports it.

Code is left out: fenced, or indented after a blank line. A cell of a table, a heading and an item of a list begin a
sentence of their own. A link counts by its text, and what is in backquotes as one word. A sentence ends with `.`, `!`
or `?` before a blank, but not with `..`, nor with an abbreviation; so a number as 1.75 ends none.
"""
import re

FENCE = re.compile(r" *(```+|~~~+)")
ITEM = re.compile(r"( *)([-*+]|\d+[.)]) +")
# A row of a table, the line below its head, a heading, and an address that gets a name.
ROW = re.compile(r" *\|")
RULE = re.compile(r" *\|?[\s:|-]*-[\s:|-]*$")
HEADING = re.compile(r" {0,3}#{1,6} ")
NAMED = re.compile(r" {0,3}\[[^\]]+\]: ")
# What is read as one word, and what as the text that it shows.
CODE = re.compile(r"(`+)(.+?)(?<!`)\1(?!`)", re.S)
ADDRESS = re.compile(r"<https?://[^>]*>")
LINK = re.compile(r"!?\[((?:[^\[\]]|\[[^\[\]]*\])*)\](?:\([^()]*(?:\([^()]*\)[^()]*)*\)|\[[^\]]*\])", re.S)
MARK = "\u25a1"
END = re.compile(r"(?<!\.)[.!?][\"'\u201d)\]*_]*$")
ABBREVIATIONS = {"e.g.", "i.e.", "cf.", "vs.", "resp.", "approx.", "ca.", "no.", "nos.", "p.", "pp.", "fig.", "st."}


def without_fences(text):
    """The lines of a text, and blank ones in the place of fenced code."""
    fence = ""
    for line in text.expandtabs(4).split("\n"):
        found = FENCE.match(line)
        if fence:
            fence = "" if line.strip().startswith(fence) else fence
            yield ""
        elif found:
            fence = found[1]
            yield ""
        else:
            yield line


def without_code(lines):
    """The lines, and blank ones in the place of code: after a blank line, four columns to the right of its list."""
    inside, is_after_blank = 0, True
    for line in lines:
        is_blank, indent, item = not line.strip(), len(line) - len(line.lstrip(" ")), ITEM.match(line)
        if is_after_blank and not is_blank:
            inside = min(inside, indent)
            if indent >= inside + 4:
                yield ""
                continue
        inside = item.end() if item else inside
        is_after_blank = is_blank
        yield line


def parts_of(line):
    """The cells of a row, or the text of a heading."""
    if HEADING.match(line):
        return [HEADING.sub("", line)]
    if NAMED.match(line) or RULE.match(line):
        return []
    bars = CODE.sub(lambda it: it[0].replace("|", MARK), line.replace("\\|", MARK))
    return bars.strip().strip("|").split("|")


def blocks_of(text):
    """The stretches of prose of a document, each with the number of its first line."""
    held, first = [], 0
    for number, line in enumerate(without_code(without_fences(text)), 1):
        is_blank, item = not line.strip(), ITEM.match(line)
        is_alone = any(it.match(line) for it in (ROW, HEADING, NAMED))
        if held and (is_blank or item or is_alone):
            yield first, "\n".join(held)
            held = []
        if is_alone:
            yield from ((number, part) for part in parts_of(line))
        elif not is_blank:
            first = first if held else number
            held.append(line[item.end():] if item else line.lstrip("> "))
    if held:
        yield first, "\n".join(held)


def plain(text):
    """The text, with one word in the place of code and of an address, and of each link what it shows."""
    text = CODE.sub(lambda it: MARK + "\n" * it[0].count("\n"), text)
    return LINK.sub(r"\1", LINK.sub(r"\1", ADDRESS.sub(MARK, text)))


def is_end(word):
    return bool(END.search(word)) and word.lower().lstrip("(\"'[*_") not in ABBREVIATIONS


def sentences_of(text):
    """Each sentence of a document: the line on which it begins, and its words."""
    for first, block in blocks_of(text):
        words, begun = [], first
        for place, line in enumerate(plain(block).split("\n")):
            for word in line.split():
                begun = begun if words else first + place
                if re.search(rf"\w|{MARK}", word):
                    words.append(word)
                if words and is_end(word):
                    yield begun, words
                    words = []
        if words:
            yield begun, words
