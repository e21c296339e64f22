"""The words of words.txt: those that pages may have though no source has them, and those that they may not have."""
import re


def whole(word):
    """What finds a word where it is whole."""
    return (r"\b" if word[0].isalnum() else "") + re.escape(word) + (r"\b" if word[-1].isalnum() else "")


class Words:
    """Words in lines 'WORD  REASON' below lines '[allowed] KIND' and '[not to be used] KIND'."""

    def __init__(self, path):
        self.allowed, self.refused = {}, {}
        into = self.allowed
        with open(path, encoding="utf-8") as file:
            for line in file:
                line = line.rstrip("\n")
                if line.startswith("["):
                    into = self.refused if line.startswith("[not") else self.allowed
                elif line.strip() and not line.startswith("#"):
                    word, _, reason = line.partition("  ")
                    into[word.lower() if into is self.refused else word] = reason.strip()
        self.any_refused = re.compile("|".join(map(whole, self.refused)), re.I)

    def faults(self, page):
        """The line and the text of each word of a page that is not to be used."""
        lines = page.prose + [(block.line + at, line) for block in page.blocks for at, line in enumerate(block.lines)]
        for number, line in lines:
            for word in self.any_refused.findall(line) if self.refused else ():
                yield number, f"'{word}' is not to be used: {self.refused[word.lower()]}"
