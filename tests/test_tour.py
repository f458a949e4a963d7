"""The tours of README.md and docs/guide.md: each command that they show prints what they show."""
import re
import shutil
import subprocess

from program import ROOT, equal

# Tools that the guide calls. Where one is not installed, its commands are left out: what they write lies in examples/ already.
TOOLS = {"berkeley-abc", "iverilog", "parallel", "pv", "vvp", "yosys"}


def shown_calls(page):
    """The command lines of a page that begin with '$', each with what is shown below it."""
    calls, inside = [], False
    for line in (ROOT / page).read_text().split("\n"):
        if line.startswith("    $ "):
            calls.append([line[6:], ""])
            inside = True
        elif line.startswith("    ") and inside:
            calls[-1][1] += line[4:] + "\n"
        else:
            inside = False
    return calls


def can_run(command):
    """Whether each tool that the command calls is there."""
    return all(shutil.which(tool) for tool in TOOLS & set(command.split()))


def prints(page, folder, path):
    """The commands of a page, one after another in a folder, print what the page shows, notes too. A command is left out too
    if it names a file that one which was left out would have written."""
    calls, unwritten = shown_calls(page), set()
    equal(f"whether {page} has commands", bool(calls), True)
    for command, output in calls:
        names = set(re.findall(r"[\w/-]+\.[\w.-]+", command))
        if names & unwritten or not can_run(command):
            unwritten |= {name for name in names if not (folder / name).exists()}
            continue
        shell = ["bash", "-c", f'export PATH="{path}:$PATH"; {command} 2>&1']
        done = subprocess.run(shell, cwd=folder, capture_output=True, timeout=60)
        equal(f"what {command} prints", done.stdout.decode(), output)


def test_the_tour(pim, folder):
    """README.md's commands, in a folder that looks like the repository."""
    (folder / "examples").symlink_to(ROOT / "examples")
    (folder / "crates" / "pim" / "out").mkdir(parents=True)
    (folder / "crates" / "pim" / "out" / "pim").symlink_to(pim.path)
    prints("README.md", folder, folder)


def test_the_guide(pim, folder):
    """The guide's commands, in a folder that has the examples."""
    for path in [*(ROOT / "examples").glob("*.*"), *(ROOT / "examples" / "verilog").glob("*.v")]:
        shutil.copy(path, folder)
    (folder / "bin").mkdir()
    (folder / "bin" / "pim").symlink_to(pim.path)
    prints("docs/guide.md", folder, folder / "bin")
