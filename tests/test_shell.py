"""What a shell offers: completion of words, and the manual page."""
import shutil
import subprocess

from program import ROOT, equal

# Words that each command takes, behind its name. The file is not there.
TAKEN = {"asm": "", "bench": "1", "compile": "--target magic --cells 0", "convert": "--form 1", "imply": "--cells 0",
         "share": "absent --cells 0", **dict.fromkeys(("debug", "explain", "implyrun", "list", "prove", "run"), "absent")}

ASK = """
source "$1"; shift
COMP_WORDS=("$@"); COMP_CWORD=$(($# - 1))
_pim
printf '%s\\n' "${COMPREPLY[@]}"
"""


def completed(folder, *words):
    """The words that bash offers for the last of these."""
    shell = ["bash", "--norc", "-c", ASK, "bash", ROOT / "docs" / "pim.bash", "pim", *words]
    done = subprocess.run(shell, cwd=folder, capture_output=True, text=True, timeout=60)
    equal("what bash says", done.stderr, "")
    return sorted(done.stdout.split())


def test_completion(pim, folder):
    """Commands, options, their values and files are offered where they may stand."""
    (folder / "my.pim").write_text("")
    equal("commands", completed(folder, "co"), ["compile", "convert"])
    equal("levels", completed(folder, "compile", "--level", ""), ["0", "1", "2"])
    equal("options", completed(folder, "compile", "--"), ["--cells", "--level", "--target"])
    equal("targets", completed(folder, "compile", "--target", ""), ["magic", "plim"])
    equal("a number", completed(folder, "compile", "--cells", ""), [])
    equal("forms", completed(folder, "convert", "--form", ""), ["1", "2"])
    for command in "run", "list", "explain", "debug", "prove", "share", "implyrun":
        equal(f"files of {command}", completed(folder, command, "m"), ["my.pim"])
    for command in "run", "debug", "implyrun":
        equal(f"options of {command}", completed(folder, command, "my.pim", ""), ["--fill"])
    for command, last in ("share", ["my.pim", ""]), ("imply", [""]):
        equal(f"options of {command}", completed(folder, command, *last), ["--cells"])
    equal("options of explain", completed(folder, "explain", "my.pim", ""), ["--tree"])
    equal("fillings", completed(folder, "run", "my.pim", "--fill", "o"), ["ones"])


def test_each_offered_command_is_one(pim, folder):
    """All commands are offered. Each is known to the program, so that words which it takes are no usage, and is in the manual."""
    page = (ROOT / "docs" / "pim.1").read_text()
    equal("the commands", completed(folder, ""), sorted(TAKEN))
    for command, words in TAKEN.items():
        equal(f"whether the manual has {command}", f".B pim {command}" in page, True)
        equal(f"whether {command} is usage", pim(command, *words.split(), cwd=folder).status == 2, False)


def test_the_manual_page(pim, folder):
    """The page is rendered without a warning, where there is a man that renders pages."""
    if not shutil.which("man"):
        return
    done = subprocess.run(["man", "-l", "--warnings", ROOT / "docs" / "pim.1"], capture_output=True, text=True, timeout=60)
    equal("the warnings", done.stderr, "")
    equal("whether it begins with the name", "pim - compile netlists" in " ".join(done.stdout.split()).replace("\u2010", "-"), True)
