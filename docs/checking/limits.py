"""The figures of limits, compared with the constants of the sources."""
import re

FIGURE = r"(\d[\d,]*(?:\^\d+(?: - 1)?)?)"
CONSTANT = re.compile(r"\{(\w+):(\w+?)([+-]\d+)?\}")


def number_of(figure):
    """The number that a figure is."""
    base, _, power = figure.replace(",", "").replace(" - 1", "").partition("^")
    return int(base) ** int(power or 1) - figure.endswith(" - 1")


def spelled(number):
    """A number as pages write it."""
    for power in range(30, 65):
        if number in (1 << power, (1 << power) - 1):
            return f"2^{power}" + (" - 1" if number & 1 else "")
    return f"{number:,}"


class Limits:
    """The phrases of limits.txt, each with what finds it, and with the constants of its figures."""

    def __init__(self, path, sources):
        self.phrases, self.found, self.faults_of_list = [], set(), []
        with open(path, encoding="utf-8") as file:
            lines = [line.strip() for line in file if line.strip() and not line.startswith("#")]
        for phrase in lines:
            pattern = "".join(FIGURE if at % 4 else re.escape(part).replace(r"\ ", r"\s*") for at, part
                              in enumerate(CONSTANT.split(phrase)) if at % 4 in (0, 1))
            try:
                values = [sources.value(crate, name) + int(more or 0) for crate, name, more in CONSTANT.findall(phrase)]
                self.phrases.append((phrase, re.compile(pattern, re.I), values))
            except KeyError as error:
                self.faults_of_list.append(f"there is no constant {error.args[0]}: {phrase}")

    def faults(self, page):
        """Each figure of a page that is not its constant."""
        text = page.plain.lower()
        for phrase, pattern, values in self.phrases:
            if max(CONSTANT.sub("{", phrase).split("{"), key=len).strip(" |").lower() not in text:
                continue
            for found in pattern.finditer(page.plain):
                self.found.add(phrase)
                for figure, value in zip(found.groups(), values):
                    if number_of(figure) != value:
                        yield page.line_of(pattern), f"'{found[0]}': the limit is {spelled(value)}"

    def unused(self):
        """What is wrong with the list: constants that there are not, and phrases that no page has."""
        unused = [phrase for phrase, _, _ in self.phrases if phrase not in self.found]
        return self.faults_of_list + [f"no page has the phrase: {phrase}" for phrase in unused]
