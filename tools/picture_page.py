"""The page in which one steps through the events of a run: tools/picture_page.html, with the data lines put into it, and page/parts/picture.js, which says
what of them is drawn and said. The page only draws the part of it around the cursor, so that long runs can be looked at too.
"""

import html
import json
import os

TOP = os.path.dirname(os.path.dirname(os.path.realpath(__file__)))


def text_of(path):
    with open(f"{TOP}/{path}", encoding="utf-8") as file:
        return file.read()


def in_script(value):
    """JSON that may stand in a script."""
    return json.dumps(value, ensure_ascii=False).replace("</", "<\\/").replace("<!--", "<\\!--")


def page_of(lines, title=""):
    title = title or "A run"
    head, _, rest = text_of("tools/picture_page.html").partition("/*PICTURE*/")
    between, _, page = rest.partition('"DATA"')
    script = text_of("page/parts/picture.js").replace('"use strict";\n', "", 1)
    return f"{head.replace('TITLE', html.escape(title), 1)}{script}{between}picture.dataOf({in_script(lines)}, {in_script(title)}){page}"
