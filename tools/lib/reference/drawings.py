"""The pictures and drawings of calls, and how to read them."""

import re

from reference import prose
from reference.comments import DRAWING, paragraph, sentences
from reference.pages import marked

PICTURE = re.compile(r"pictures/(\w+\.svg)")
ROW = "A row such as `f (a, b, c)` has the half edges of a face in turn."


class Drawings:
    def __init__(self, places):
        self.places, self.text, self.pictures = places, (places.project.root / "docs/PICTURES.md").read_text(), {}
        for line in self.text.split("\n"):
            call, *pictures = line.strip("|").split(" | ") if line.startswith("| ") else [""]
            for name in re.findall(r"`(\w+)[^`]*`", call) if len(pictures) == 2 else ():
                self.pictures.setdefault(name, []).append((call.strip(), [PICTURE.findall(it) for it in pictures]))

    def show(self, page, name):
        """The pictures before and after, where docs/PICTURES.md has them of this call, and how to read them."""
        for said, pictures in self.pictures.get(name, ()):
            shown = [f'<img src="{page.to("pictures/" + it)}" alt="{it[:-4]}">' for names in pictures for it in names]
            page.add(f"<figure>{' <span class=then>→</span> '.join(shown)}<figcaption>{prose.shown([said], str)}</figcaption></figure>")
        if name in self.pictures:
            page.add(f"<p class=count>{marked(paragraph(self.text, 'A circle is'))}</p>")

    def letters(self, call):
        """What the letters of a call's drawing mean, by the sentences of its module that have one of them; None if nothing says it."""
        drawing = " ".join(DRAWING.findall("\n".join(call.doc)))
        if not drawing or call not in self.places.shown_by:
            return ""
        _, module = self.places.shown_by[call]
        told = sentences(paragraph("\n".join(module.doc), "In the pictures").split("\n"))
        told = [it for it in told if any(re.search(rf"\b{letter}\b", drawing) for letter in re.findall(r"`(\w+)`", it))]
        if not told and re.search(r"\b[nL]\b", drawing):
            return None
        told += [ROW] if re.search(r"\S +\(.*,.*\)", drawing) else []
        return f"<p class=count>In the drawing: {marked(' '.join(told))}</p>" if told else ""
