"""Looks for what the pages quote, so that no page shows what the sources don't say.

- Each indented or fenced block of README.md and docs/GUIDE.md stands in a source, a definition, an output that is compared or an
  example, but for white space; blocks of commands and drawings are left out.
- Each example at the head of a crate's lib.rt or main.rt stands in another file of that crate's sources.
- Each relative link of README.md, docs/ and examples/README.md leads to a file.

Prints one line of counts, and before it a line for each fault. The exit status is 1 where there is a fault, or nothing to check.
"""

import re
import sys
from pathlib import Path

PAGES = ["README.md", "docs/GUIDE.md"]
QUOTED = [
    "crates/*/src/**/*.rt",
    "crates/*/specs/*.antt",
    "crates/*/stdout",
    "examples/**/*.script",
    "examples/**/*.expected",
]
# what begins a block that quotes nothing: commands, drawings, the toolchain's name
COMMANDS = ("cd ", "(cd ", "cp ", "python3 ", "rt ", "+--", "rattle-kit-")


def squeezed(text):
    """The text without white space, and without the commas that formatting adds before a closing bracket."""
    return re.sub(r",(?=[)\]}])", "", re.sub(r"\s+", "", text))


def indented_blocks(page):
    """The blocks of a page that are indented by four spaces below a blank line, or fenced."""
    blocks, block, fenced, blank = [], [], False, True
    for line in [*page.split("\n"), ""]:
        if line.strip().startswith("```"):
            fenced = not fenced
        elif fenced or (line.startswith("    ") and (blank or block)):
            block.append(line)
            continue
        elif not line.strip() and block:
            block.append(line)
            blank = True
            continue
        if block:
            blocks.append("\n".join(block).strip("\n"))
            block = []
        blank = not line.strip()
    return [it for it in [*blocks, "\n".join(block).strip("\n")] if it.strip()]


def head_examples(source):
    """The fenced examples in the comments at the head of a file."""
    head = []
    for line in source.split("\n"):
        if not line.startswith("//!"):
            break
        head.append(line[3:].removeprefix(" "))
    return [part.strip("\n") for part in "\n".join(head).split("```")[1::2]]


def check_quotes(faults):
    """Looks for the blocks of the pages, and returns how many there are."""
    places = [squeezed(path.read_text()) for pattern in QUOTED for path in sorted(Path().glob(pattern))]
    count = 0
    for page in PAGES:
        for block in indented_blocks(Path(page).read_text()):
            if block.strip().startswith(COMMANDS):
                continue
            count += 1
            if not any(squeezed(block) in place for place in places):
                faults.append(f"{page}: quotes what stands nowhere: {block.strip().splitlines()[0]}")
    return count


def check_examples(faults):
    """Looks for the examples at the heads of crates, and returns how many there are."""
    count = 0
    for root in sorted([*Path().glob("crates/*/src/lib.rt"), *Path().glob("crates/*/src/main.rt")]):
        others = [squeezed(path.read_text()) for path in sorted(root.parent.glob("**/*.rt")) if path != root]
        for example in head_examples(root.read_text()):
            count += 1
            if not any(squeezed(example) in other for other in others):
                faults.append(f"{root}: its example stands nowhere else: {example.splitlines()[0]}")
    return count


def check_links(faults):
    """Follows the relative links of the pages, and returns how many there are."""
    count = 0
    for page in [Path("README.md"), Path("examples/README.md"), *sorted(Path("docs").glob("*.md"))]:
        for link in re.findall(r"\]\(([^)\s]+)\)", page.read_text()):
            if "://" in link or link.startswith("#"):
                continue
            count += 1
            if not (page.parent / link.split("#")[0]).exists():
                faults.append(f"{page}: a link that leads nowhere: {link}")
    return count


def main():
    faults = []
    counts = check_quotes(faults), check_examples(faults), check_links(faults)
    for fault in faults:
        print(fault)
    print("pages: {} quoted blocks, {} examples, {} links, {} faults".format(*counts, len(faults)))
    return 1 if faults or 0 in counts else 0


if __name__ == "__main__":
    sys.exit(main())
