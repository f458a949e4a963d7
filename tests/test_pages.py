"""The pages of the repository: what they name is there."""
import re

from program import ROOT

PAGES = [ROOT / "README.md", ROOT / "CONTRIBUTING.md", *sorted(ROOT.glob("docs/*.md")), *sorted(ROOT.glob("*/README.md"))]
MADE = {"NAME", "out", "list", "list.rt", "list.antt", "list.cases"}


def test_the_paths_that_pages_name(pim, folder):
    """Each file and folder that a page names is there, but for what is made, and for the examples of the recipes."""
    missing = []
    for page in PAGES:
        for path in re.findall(r"(?<![\w/.])(?:docs|crates|tests|examples|bench)/[\w./]*\w", page.read_text()):
            if not MADE & set(path.split("/")) and not (ROOT / path).exists():
                missing.append(f"{page.relative_to(ROOT)} names {path}")
    assert not missing, "; ".join(missing)
