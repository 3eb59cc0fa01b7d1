"""What a document says that can be looked up: links, headings, commands, and names cited beside a link."""
import re

LINK = re.compile(r"\[[^\]]*\]\(([^)\s]+)\)")
# `code`, but for the text of a link
CODE = re.compile(r"(\[`[^`]*`\])|`[^`]*`")
# `name`, `name` ([file](path), [file](path))
CITED = re.compile(r"((?:`[^`]+`(?:, | and )?)+) \((" + LINK.pattern + r"(?:, " + LINK.pattern + r")*)\)")


class Document:
    """The lines of a document, each with its number: those of prose, and those of code blocks, fenced or indented."""

    def __init__(self, text):
        self.prose, self.code = [], []
        fenced, indented, blank = False, False, True
        for number, line in enumerate(text.splitlines(), 1):
            if line.startswith("```"):
                fenced = not fenced
                continue
            if line.strip():
                indented = line.startswith("    ") and (blank or indented)
            blank = not line.strip()
            (self.code if fenced or indented else self.prose).append((number, line))

    def links(self):
        return [(number, target) for number, line in self.prose for target in LINK.findall(CODE.sub(r"\1", line))]

    def commands(self):
        """The words of each line of a code block."""
        return [(number, line.split()) for number, line in self.code if line.strip()]

    def cited(self):
        """The names that stand before links in brackets, and those links' targets."""
        return [(number, re.findall(r"`([^`]+)`", found[1]), LINK.findall(found[2]))
                for number, line in self.prose for found in CITED.finditer(line)]

    def anchors(self):
        """The anchors of headings: in lower case, without marks, hyphens for spaces; numbered if repeated."""
        seen, anchors = {}, set()
        for _, line in self.prose:
            heading = re.match(r"#+ +(.*)", line)
            if heading:
                anchor = re.sub(r"[^\w\- ]", "", heading[1].lower()).strip().replace(" ", "-")
                seen[anchor] = seen.get(anchor, -1) + 1
                anchors.add(f"{anchor}-{seen[anchor]}" if seen[anchor] else anchor)
        return anchors
