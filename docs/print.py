#!/usr/bin/python3
"""Makes pages for the printer of docs/PAPER-CASES.md: FOLDER/PAPER-CASES.pdf, and FOLDER/form.pdf with the blank form alone.

usage: docs/print.py FOLDER      docs/print.sh calls it, and installs what it needs

The rules, the picture and the form must fill one page each, and the form must have 30 rows, or it ends with 1.
"""
import re
import sys
from pathlib import Path

DOCS = Path(__file__).resolve().parent
PAGE, STYLE = DOCS / "PAPER-CASES.md", DOCS / "print.css"
TITLE = "Working a case on paper"
FORM_ROWS = 30
# What stands above the form, to be filled in.
FORM_HEAD = '<p>Case <span class="long"></span>n <span></span>W <span></span>L <span></span>sheet <span></span>of <span></span></p>'
# A case of more turns than this is cut over two pages.
MOST_TURNS = 30
# On a page of its own.
ALONE = ["rules", "picture", "form-sheet"]


class Wrong(Exception):
    """Something that is told in words, not as a traceback."""


def parts(text, markdown):
    """The page's parts, a heading with what follows it down to the next: its classes for the style sheet, and its HTML."""
    wide = False
    for part in re.split(r"^(?=#{1,3} )", text, flags=re.M)[1:]:
        names, html = re.findall(r"<!-- (?!end)([\w-]+)", part), markdown(part)
        if part.startswith("## "):
            wide = "<h2>The cases</h2>" in html
        if "form" in names:
            told, form = html.split("<table>")
            yield [], told
            yield ["form-sheet"], f'{FORM_HEAD}<table class="case-table">{form}'
        elif {"case", "poll", "house"} & set(names):
            long, table = html.count("<tr>") > MOST_TURNS + 1, "house-table" if "house" in names else "case-table"
            yield ["wide", "long" if long else "case"], html.replace("<table>", f'<table class="{table}">')
        else:
            yield ["wide"] * (wide or "house-cases" in names) + ["picture"] * ("](walk.svg)" in part) + names, html


def written(chosen):
    """A document of those parts. Where the paper is turned, a new page begins."""
    text, before = f'<!DOCTYPE html><html lang="en"><meta charset="utf-8"><title>{TITLE}</title>', ["wide"]
    for number, (classes, html) in enumerate(chosen):
        turned = ["turned"] * (("wide" in classes) != ("wide" in before))
        text += f'<section id="part-{number}" class="{" ".join(classes + turned)}">{html}</section>'
        before = classes
    return text


def begun(pages):
    """For each part the page that it begins on."""
    first = {}
    for number, page in enumerate(pages):
        for name in page.anchors:
            first.setdefault(name, number)
    return first


def check_alone(chosen, pages):
    """Fails unless the rules, the picture and the form have a page each."""
    first = begun(pages)
    for number, (classes, _) in enumerate(chosen):
        for name in set(ALONE) & set(classes):
            taken = first.get(f"part-{number + 1}", len(pages)) - first[f"part-{number}"]
            if taken != 1:
                raise Wrong(f"{name}: {taken} pages, and it should be one")


def main():
    words = sys.argv[1:]
    if words in (["--help"], ["-h"]):
        print(__doc__.strip())
        return
    if len(words) != 1 or words[0].startswith("-"):
        sys.exit("print.py: one folder is wanted; try --help")
    import markdown
    import weasyprint

    folder = Path(words[0])
    folder.mkdir(parents=True, exist_ok=True)
    whole = list(parts(PAGE.read_text(encoding="utf-8"), lambda text: markdown.markdown(text, extensions=["tables", "sane_lists"])))
    form = [part for part in whole if "form-sheet" in part[0]]
    if [html.count("<tr>") for _, html in form] != [1 + FORM_ROWS]:
        raise Wrong(f"the form has not {FORM_ROWS} rows")
    for name, chosen in ("PAPER-CASES", whole), ("form", form):
        made = weasyprint.HTML(string=written(chosen), base_url=f"{DOCS}/").render(stylesheets=[weasyprint.CSS(str(STYLE))])
        made.write_pdf(str(folder / f"{name}.pdf"))
        print(f"print: {folder / name}.pdf, {len(made.pages)} page{'s' * (len(made.pages) > 1)}")
        check_alone(chosen, made.pages)


if __name__ == "__main__":
    try:
        main()
    except Wrong as wrong:
        sys.exit(f"print.py: {wrong}")
