"""Programs of both machines come back: through a listing and the assembler, and through either form."""
from program import ROOT, equal, gives


def programs(pim):
    """The text of a program of each example for each machine."""
    for path in sorted((ROOT / "examples").iterdir()):
        if path.suffix in {".aag", ".aig", ".blif"}:
            for target in "magic", "plim":
                answer = pim("compile", "--target", target, "--cells", "1000", stdin=path.read_bytes())
                equal(f"the note on {path.name}", answer.notes, b"")
                yield answer.output


def test_a_listing_comes_back(pim, folder):
    """`asm` of what `list` writes is the program, which stands in either form."""
    for text in programs(pim):
        binary = pim("convert", "--form", "2", stdin=text).output
        for form in text, binary:
            (folder / "program").write_bytes(form)
            gives(pim("asm", stdin=pim("list", folder / "program").output), text)


def test_a_form_comes_back(pim, folder):
    """`convert` gives each form of either, and the binary one is the smaller."""
    for text in programs(pim):
        binary = pim("convert", "--form", "2", stdin=text).output
        equal("whether the binary form is smaller", len(binary) < len(text), True)
        for form in text, binary:
            gives(pim("convert", "--form", "1", stdin=form), text)
            gives(pim("convert", "--form", "2", stdin=form), binary)


def test_a_label_with_a_quote(pim, folder):
    """A label with a quote, a backslash and bytes that are not printed is listed in its escapes, and comes back."""
    text = b'pim 1\ntarget plim\ncells 2\ninput 0 a"b\\\xff\noutput 1 ; f \ncycles 1\nrm3 #0 #1 @1\nend\n'
    (folder / "program").write_bytes(text)
    listing = pim("list", folder / "program").output
    gives(pim("list", folder / "program"), b'target plim\ncells 2\ninput 0 "a\\22b\\5c\\ff"\noutput 1 "; f "\nrm3 #0 #1 @1 ; 0\n')
    gives(pim("asm", stdin=listing), text)
