"""HTML pages, read for the tests: every tag closed, every name once, and nothing of other files."""

from __future__ import annotations

from html.parser import HTMLParser

VOID = {"meta", "link", "input", "br", "img", "hr"}


class Page(HTMLParser):
    """A page's elements with their texts. Raises where tags do not close each other."""

    def __init__(self, text: str) -> None:
        super().__init__(convert_charrefs=True)
        self.elements: list[tuple[str, dict[str, str], list[str]]] = []
        self._open: list[tuple[str, list[str]]] = []
        self.feed(text)
        self.close()
        if self._open:
            raise AssertionError(f"{[tag for tag, _ in self._open]} stay open")

    def handle_starttag(self, tag, attrs):
        texts: list[str] = []
        self.elements.append((tag, {name: value or "" for name, value in attrs}, texts))
        if tag not in VOID:
            self._open.append((tag, texts))

    def handle_startendtag(self, tag, attrs):
        self.elements.append((tag, {name: value or "" for name, value in attrs}, []))

    def handle_endtag(self, tag):
        if not self._open or self._open[-1][0] != tag:
            raise AssertionError(f"</{tag}> closes {[tag for tag, _ in self._open][-3:]}")
        self._open.pop()

    def handle_data(self, data):
        for _, texts in self._open:
            texts.append(data)

    def all(self, tag, **wanted):
        """The elements of a tag with these attributes, as attributes and text; `kind` is one of its classes."""
        kind = wanted.pop("kind", None)
        return [
            (attributes, "".join(texts))
            for name, attributes, texts in self.elements
            if name == tag
            and (kind is None or kind in attributes.get("class", "").split())
            and all(attributes.get(key) == value for key, value in wanted.items())
        ]

    def named(self, name):
        """The text of the element with an id."""
        (found,) = ["".join(texts) for _, attributes, texts in self.elements if attributes.get("id") == name]
        return found

    def names(self):
        return [attributes["id"] for _, attributes, _ in self.elements if "id" in attributes]

    def references(self):
        """What the page refers to, other than places of its own."""
        found = [
            attributes[key]
            for _, attributes, _ in self.elements
            for key in ("href", "src", "action", "data", "srcset", "poster", "xlink:href")
            if key in attributes
        ]
        return [reference for reference in found if not reference.startswith("#")]
