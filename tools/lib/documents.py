"""Limits on what documents say, and faults that are planted to see them found."""

import re

from reference.shelves import shelf_faults

README_WORDS = 900
DOCS_WORDS = 21_000
BLOCK = re.compile(r"(?ms)^```.*?^```$")
GATE = re.compile(r"gate passes over the ([\w-]+) crates:.*?([\d,]+) wrong bodies")
TENS = ["twenty", "thirty", "forty", "fifty", "sixty", "seventy", "eighty", "ninety"]
ONES = ["", "-one", "-two", "-three", "-four", "-five", "-six", "-seven", "-eight", "-nine"]


def readme_faults(text):
    """More words than README may have beside its blocks of code."""
    words = BLOCK.sub("", text).split()
    return [f"{len(words)} words beside code, and at most {README_WORDS} may be"] if len(words) > README_WORDS else []


def length_faults(texts):
    """More words than the pages that people write may have together."""
    count = sum(len(it.split()) for it in texts)
    return [f"{count:,} words in all, and fewer than {DOCS_WORDS:,} may be"] if count >= DOCS_WORDS else []


def gate_faults(text, crates, bodies):
    """Numbers of the sentence about the gate that aren't those of the crates and of the wrong bodies, or no such sentence."""
    wanted = (in_words(crates), f"{bodies:,}")
    said = GATE.findall(text)
    return [] if said == [wanted] else [f"there are {wanted[0]} crates and {wanted[1]} wrong bodies, and it says {said}"]


def in_words(number):
    """A number from 20 to 99."""
    return TENS[number // 10 - 2] + ONES[number % 10]


def unseen(planted):
    """The names of planted texts in which no fault is found."""
    return [f"nothing is found in {name}" for name, faults in planted.items() if not list(faults)]


def planted_faults():
    """Planted faults that aren't found, and faults found where there are none."""
    crates = "# What follows are crates.\n\n# Low: what is below.\n# It goes on: so.\na:\nb: a  # why\n\n# High. More.\nc staticlib: a\n"
    page = "# A\n\n## Crates\n\nWords: `c`.\n\n### Low\n\n- `a`: one\n- `b`: over `a`\n\n### High\n\n- `c`: three\n\n## More\n\n- `d`: no crate\n"
    sentence = "The gate passes over the fifty-one crates: all is proved, 1,422 wrong bodies are refused."
    sound = {
        "900 words": readme_faults("word " * 900 + "\n```rust\nmany words more\n```\n"),
        "20,999 words": length_faults(["word " * 20_000, "word " * 999]),
        "shelves": shelf_faults(crates, page),
        "a sentence": gate_faults(sentence, 51, 1422),
    }
    return [f"in {name} is found {it}" for name, faults in sound.items() for it in faults] + unseen(
        {
            "a README of 901 words": readme_faults("word " * 901),
            "a README whose words follow a block": readme_faults("```\ncode\n```\n" + "word " * 901 + "\n```\ncode\n```\n"),
            "21,001 words": length_faults(["word " * 21_000, "word"]),
            "swapped crates": shelf_faults(crates, page.replace("- `a`: one\n- `b`: over `a`", "- `b`: over `a`\n- `a`: one")),
            "a crate on another shelf": shelf_faults(crates, page.replace("- `b`: over `a`\n\n### High\n", "\n### High\n\n- `b`: over `a`")),
            "a crate that isn't listed": shelf_faults(crates, page.replace("- `b`: over `a`\n", "")),
            "a crate that is listed twice": shelf_faults(crates, page.replace("- `c`: three\n", "- `c`: three\n- `a`: again\n")),
            "a crate that isn't there": shelf_faults(crates, page.replace("- `c`: three\n", "- `c`: three\n- `d`: four\n")),
            "a shelf of another name": shelf_faults(crates, page.replace("### High", "### Above")),
            "a shelf of no crates": shelf_faults(crates, page.replace("### High", "### Between\n\n### High")),
            "swapped shelves": shelf_faults(crates, page.replace("Low", "X").replace("High", "Low").replace("X", "High")),
            "crates without a shelf": shelf_faults(crates.replace("#", ""), page.replace("###", "")),
            "a page without a section of crates": shelf_faults(crates, page.replace("## Crates", "## More")),
            "a wrong number of crates": gate_faults(sentence, 52, 1422),
            "a wrong number of bodies": gate_faults(sentence, 51, 1421),
            "a page without the sentence": gate_faults("", 51, 1422),
        }
    )
