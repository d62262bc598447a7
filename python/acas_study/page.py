"""The page of a study."""
from html import escape

HEAD = """<!DOCTYPE html>
<html lang="en">
<head>
<meta charset="utf-8">
<title>{title}</title>
<style>
body {{ font-family: sans-serif; margin: 2em; max-width: 80em; }}
table {{ border-collapse: collapse; font-size: 85%; }}
th, td {{ padding: 0.2em 0.7em; text-align: right; border-bottom: 1px solid #ccc; }}
th:first-child, td:first-child {{ text-align: left; }}
figure {{ display: inline-block; margin: 0.5em; vertical-align: top; }}
figure img {{ width: 36em; max-width: 100%; }}
figcaption {{ font-size: 85%; }}
</style>
</head>
<body>
<h1>{title}</h1>
"""


def page_of(title: str, header: list[str], rows: list[list[str]], names: list[str]) -> str:
    """The text of the page: the trade, the table, and the four pictures of each model."""
    parts = [HEAD.format(title=escape(title)), _figure("pictures/trade.png", "the trade"), _table(header, rows)]
    for name in names:
        parts.append(f'<h2 id="{escape(name)}">{escape(name)}</h2>\n')
        parts += [_figure(f"pictures/{name}-{kind}.png", f"{kind} of {name}") for kind in ("policy", "verdicts", "risk", "safeable")]
    return "".join([*parts, "</body>\n</html>\n"])


def _figure(source: str, caption: str) -> str:
    return f'<figure><img src="{escape(source)}" alt="{escape(caption)}"><figcaption>{escape(caption)}</figcaption></figure>\n'


def _table(header: list[str], rows: list[list[str]]) -> str:
    head = "".join(f"<th>{escape(name)}</th>" for name in header)
    lines = "".join(f"<tr>{_link(row[0])}{''.join(f'<td>{escape(cell)}</td>' for cell in row[1:])}</tr>\n" for row in rows)
    return f"<table>\n<tr>{head}</tr>\n{lines}</table>\n"


def _link(name: str) -> str:
    return f'<td><a href="#{escape(name)}">{escape(name)}</a></td>'
