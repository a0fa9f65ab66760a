"""That each link of a page leads somewhere."""

import glob
import os
import re
import unittest

TOP = os.path.dirname(os.path.dirname(os.path.dirname(os.path.abspath(__file__))))
PAGES = [os.path.join(TOP, "README.md"), *glob.glob(f"{TOP}/docs/*.md"), *glob.glob(f"{TOP}/editors/*.md")]
LINK = re.compile(r"\]\(([^)\s]+)\)|^\[[^\]]+\]: (\S+)$", re.M)
REFERENCE = re.compile(r"\[([^\]\n]+)\]\[([^\]\n]*)\]")
FENCED = re.compile(r"^```.*?^```$", re.M | re.S)


def text_of(page):
    """A page without its fenced blocks and without what stands in code."""
    with open(page, encoding="utf-8") as file:
        return FENCED.sub("", file.read())


def anchors(page):
    """The anchors that the headings of a page make, as the places that show such pages make them."""
    heads = re.findall(r"^#+ (.*)$", text_of(page), re.M)
    return {re.sub(r"[^\w\- ]", "", head.lower()).replace(" ", "-") for head in heads}


def without_code(text):
    return re.sub(r"`[^`\n]*`", "", text)


class Links(unittest.TestCase):
    def test_links_lead_somewhere(self):
        for page in PAGES:
            links = [one or other for one, other in LINK.findall(without_code(text_of(page)))]
            for link in (link for link in links if "://" not in link):
                with self.subTest(page=os.path.relpath(page, TOP), link=link):
                    path, _, anchor = link.partition("#")
                    to = os.path.normpath(os.path.join(os.path.dirname(page), path)) if path else page
                    self.assertTrue(os.path.exists(to))
                    if anchor:
                        self.assertIn(anchor, anchors(to))

    def test_references_are_defined(self):
        for page in PAGES:
            text = without_code(text_of(page))
            defined = set(re.findall(r"^\[([^\]]+)\]: ", text, re.M))
            for words, name in REFERENCE.findall(text):
                with self.subTest(page=os.path.relpath(page, TOP), words=words):
                    self.assertIn(name or words, defined)


if __name__ == "__main__":
    unittest.main()
