"""Constants of a PLCopen file in the bounds of arrays and the lengths of texts: their numbers take their place."""
import re

from lib.import_values import whole

# The attributes that are numbers, by their elements.
NUMBERS = {"dimension": ("lower", "upper"), "range": ("lower", "upper"), "string": ("length",), "wstring": ("length",)}
PLAIN = re.compile(r"\s*-?[0-9]*\s*")
TERM = re.compile(r"\s*([-+*()]|[0-9][0-9_]*(?:#[0-9A-Fa-f_]+)?|[A-Za-z_][A-Za-z0-9_.]*)")
MOST_TERMS = 50


class NoNumber(Exception):
    """Why the text of a bound is no number."""


def constants_of(root):
    """The texts of all constants: by their names, and by those with the list or the program in front."""
    found = {}
    for owner in root.every("pou", "globalVars"):
        name = owner.attributes.get("name", "")
        lists = [owner] if owner.tag == "globalVars" else [it for one in owner.all("interface") for it in one.inner]
        for one in lists:
            if one.attributes.get("constant") != "true":
                continue
            for it in one.all("variable"):
                value = it.first("initialValue", "simpleValue")
                if value is not None:
                    own = it.attributes.get("name", "").lower()
                    found[f"{name}.{own}".lower()] = value.attributes.get("value", "")
                    if owner.tag == "globalVars":
                        found.setdefault(own, value.attributes.get("value", ""))
    return found


class Sum:
    """Reads a sum of products of numbers and constants."""

    def __init__(self, text, owner, constants, depth=0):
        self.text, self.owner, self.constants, self.depth, self.terms = text, owner, constants, depth, []
        at = 0
        while text[at:].strip():
            it = TERM.match(text, at)
            if not it or len(self.terms) == MOST_TERMS:
                raise NoNumber(f"{text[at:at + 20].strip()} is no number")
            self.terms.append(it[1])
            at = it.end()

    def next(self, *wanted):
        return self.terms.pop(0) if self.terms and (not wanted or self.terms[0] in wanted) else None

    def number(self):
        total = self.sum()
        if self.terms:
            raise NoNumber(f"{self.text} is no sum of numbers")
        return total

    def sum(self):
        total = self.product()
        while sign := self.next("+", "-"):
            total += self.product() * (1 if sign == "+" else -1)
        return total

    def product(self):
        total = self.one()
        while self.next("*"):
            total *= self.one()
        return total

    def one(self):
        word = self.next()
        if word in ("-", "+"):
            return self.one() * (-1 if word == "-" else 1)
        if word == "(":
            inner = self.sum()
            if self.next(")") is None:
                raise NoNumber(f"{self.text} wants a )")
            return inner
        if word is None or word in ")*":
            raise NoNumber(f"{self.text} is no sum of numbers")
        number = whole(word) if word[0].isdigit() else self.constant(word)
        if number is None:
            raise NoNumber(f"{word} is no number")
        return number

    def constant(self, word):
        text = self.constants.get(f"{self.owner}.{word}".lower(), self.constants.get(word.lower()))
        if text is None:
            right = "write its number there, or export the list that has it, too"
            raise NoNumber(f"the file has no constant {word}: {right}")
        if self.depth > 20:
            raise NoNumber(f"{word} is a constant of itself")
        text = re.sub(r"^(?:U?[SDL]?INT)#", "", text.strip(), flags=re.IGNORECASE)
        return Sum(text, self.owner, self.constants, self.depth + 1).number()


def put_numbers(root):
    """Writes numbers in the place of constants; where one is not known, its element says why."""
    constants = constants_of(root)
    owners = [(it, it.attributes.get("name", "")) for it in root.every("pou", "globalVars")]
    own = {id(node): name for it, name in owners for node in it.every(*NUMBERS)}
    for node in root.every(*NUMBERS):
        for key in NUMBERS[node.tag]:
            text = node.attributes.get(key, "")
            if PLAIN.fullmatch(text):
                continue
            try:
                node.attributes[key] = str(Sum(text, own.get(id(node), ""), constants).number())
            except NoNumber as fault:
                node.attributes["why"] = f"its bound {text}: {fault}"
