"""The documents of the release's archive, each link of which leads to a file of the archive.

  python3 tools/lib/documents.py DIR    says which links of the pages below a folder lead to nothing; the last line counts

Pages of the archive also link to pages of the repository that are not in it. In the archive the text of such a link stays,
and the link goes. Its README.md is docs/ARCHIVE.md of the repository.
"""
import posixpath
import re
import sys
from pathlib import Path

# Where pages of the repository are in the archive, if that is another place; and the same from there.
PLACES = {"docs/ARCHIVE.md": "README.md", "integrations/redis/README.md": "redis/README.md"}
ORIGINS = {place: name for name, place in PLACES.items()}
LINK = re.compile(r"(!?)\[([^\]\n]*)\]\((?!\w+:)([^)\s]+)\)")
# Lines of code have no links.
CODE = re.compile(r"^(?: {4}|\t)")


def anchors(path):
    """The anchors of a document: of its heads, and those that it sets by itself."""
    text = path.read_text(encoding="utf-8")
    heads = re.findall(r"^#+ (.*)", text, re.MULTILINE)
    own = re.findall(r'<a id="([^"]+)">', text)
    return {re.sub(r"[^\w\- ]", "", it.lower()).replace(" ", "-") for it in heads} | {*own}


def replaced(text, how):
    """The text with each link replaced by what the function gives of its mark, its text and its target."""
    lines = text.splitlines(keepends=True)
    return "".join(it if CODE.match(it) else LINK.sub(lambda found: how(*found.groups()), it) for it in lines)


def target(stage, page, link):
    """How a page of the archive has to name what its link leads to in the repository; None if the archive lacks that."""
    file, mark, anchor = link.partition("#")
    if not file:
        return link
    name = posixpath.normpath(posixpath.join(posixpath.dirname(ORIGINS.get(page, page)), file))
    place = PLACES.get(name, name)
    if name in ORIGINS or not (stage / place).exists():
        return None
    return posixpath.relpath(place, posixpath.dirname(page) or ".") + mark + anchor


def pages(folder):
    """The names of the pages below a folder."""
    return sorted(it.relative_to(folder).as_posix() for it in folder.rglob("*.md"))


def mend(stage):
    """Lets the links of each page lead to files of the archive, whose folder this is, and drops the others."""

    def mended(page):
        def link(mark, text, leads):
            place = target(stage, page, leads)
            return text if place is None else f"{mark}[{text}]({place})"

        return link

    for page in pages(stage):
        text = (stage / page).read_text(encoding="utf-8")
        (stage / page).write_text(replaced(text, mended(page)), encoding="utf-8")


def plain(text):
    """A page that is shown alone: without links to files, and with those to its own heads."""
    return replaced(text, lambda mark, text, leads: f"[{text}]({leads})" if leads.startswith("#") else text)


def judged(folder):
    """The links of the pages below a folder, and whether each leads to a file, and to a head of it."""
    for page in pages(folder):
        found = []
        replaced((folder / page).read_text(encoding="utf-8"), lambda *it: found.append(it[2]) or "")
        for link in sorted({*found}):
            file, _, anchor = link.partition("#")
            path = (folder / page).parent / file if file else folder / page
            is_there = path.exists() and (not anchor or anchor in anchors(path))
            yield f"{page}: the link to {link} leads nowhere", is_there


def main():
    if len(sys.argv) != 2 or not Path(sys.argv[1]).is_dir():
        print("usage: python3 tools/lib/documents.py DIR", file=sys.stderr)
        return 2
    found = [*judged(Path(sys.argv[1]))]
    wrong = [what for what, is_right in found if not is_right]
    print(*(f"failed: {it}\n" for it in wrong), sep="", end="")
    print(f"{len(found) - len(wrong)} passed, {len(wrong)} failed")
    return int(bool(wrong))


if __name__ == "__main__":
    sys.exit(main())
