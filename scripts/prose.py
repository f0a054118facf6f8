"""The sentences of a page of Markdown, and how many words each has.

Code, tables, headings and comments are no sentences. What stands between backticks counts as one word, and so does a number with its
unit sign. An item of a list is a text of its own; of a link its words count. A sentence ends at a full stop, a question mark or an
exclamation mark before a word that begins one, and at the end of its paragraph.
"""

import re

# A sentence of more words is refused, and nine of ten have at most so many.
MOST = 40
USUAL = 25

ITEM = re.compile(r"^\s*(?:[-*+]|\d+\.)\s+")
# A full stop, what may close after it, a space, and what may begin a sentence.
END = re.compile(r"(?<=[.?!])([)\"'*_]*)\s+(?=[\"'(*_\[]*[A-Z0-9`\x00])")
ABBREVIATION = re.compile(r"\b(?:e\.g|i\.e|cf|vs|Nr|No|St|approx)\.$")


def texts(page):
    """The paragraphs and items of a page, each with the number of its first line, in one line each."""
    fenced, begins, lines = False, 0, []
    for number, line in enumerate(page.splitlines(), 1):
        is_fence = re.match(r"^\s*```", line) is not None
        fenced ^= is_fence
        is_text = not (fenced or is_fence or re.match(r"^\s*(?:\||#|<!--|!\[|$)", line)) and not (line.startswith("    ") and not lines)
        if lines and (not is_text or ITEM.match(line)):
            yield begins, " ".join(lines)
            lines = []
        if is_text:
            begins = begins if lines else number
            lines.append(ITEM.sub("", line).strip())
    if lines:
        yield begins, " ".join(lines)


def sentences(page):
    """Each sentence of a page, with the number of the line on which its paragraph begins."""
    for number, text in texts(page):
        text = re.sub(r"``[^`]+``|`[^`]*`", lambda code: "\x00" + code[0][1:-1].replace(" ", "\x01").replace(".", "\x02") + "\x00", text)
        text = re.sub(r"!?\[([^\][]*)\]\([^()]*\)", r"\1", text)
        begins = 0
        for end in END.finditer(text):
            if not ABBREVIATION.search(text[begins : end.start()]):
                yield number, shown(text[begins : end.end()])
                begins = end.end()
        if text[begins:].strip():
            yield number, shown(text[begins:])


def shown(text):
    return text.strip().replace("\x01", "\u00a0").replace("\x02", ".").replace("\x00", "`")


def words(sentence):
    """How many words a sentence has: whatever stands between spaces and has a letter or a digit, or is code."""
    return len([word for word in sentence.split(" ") if re.search(r"[^\W_]|`", word)])


def longer(page, most):
    """Each sentence of a page with more words than that: its line, its words and its text."""
    return [(number, words(text), text) for number, text in sentences(page) if words(text) > most]


def share(page, most):
    """How many sentences a page has, and how many of them have more words than that."""
    found = [words(text) for _, text in sentences(page)]
    return len(found), sum(1 for count in found if count > most)
