"""The steps of a study that the workflow calls, each in the folder of the results: `study/step STEP NAME`."""
import json
from pathlib import Path
from typing import Callable

from acas_pictures.canvas import save
from acas_pictures.policy import draw_policy
from acas_pictures.risk import draw_risk
from acas_pictures.safeable import draw_safeable
from acas_pictures.slices import Slice
from acas_pictures.verdicts import draw_verdicts
from acas_study.columns import BEHIND, DIGESTS
from acas_study.files import write_whole
from acas_study.page import page_of
from acas_study.rows import read_row, row_of, text_of_rows
from acas_study.trade import Point, draw_trade
from acas_table import Fault, Model, Table, check_origin, read_model, read_report, read_risk, read_safeable, read_table
from acas_table.replay import nearest

PLAN = Path("plan.json")


def row(name: str) -> None:
    """The row of one model, and its four pictures."""
    model = read_model(f"models/{name}.toml")
    table = read_table(f"tables/{name}.acxt", model)
    report, risk, safeable = (read(_text_of(path, model, table), path) for read, path in _printed(name))
    part = _level(model)
    Path("pictures").mkdir(exist_ok=True)
    save(draw_policy(model, table, part), Path(f"pictures/{name}-policy.png"))
    save(draw_verdicts(model, report, part), Path(f"pictures/{name}-verdicts.png"))
    save(draw_risk(model, risk, part), Path(f"pictures/{name}-risk.png"))
    save(draw_safeable(model, report, safeable, part), Path(f"pictures/{name}-safeable.png"))
    cells = row_of(model, table, report, risk, safeable).cells
    write_whole(Path(f"rows/{name}.csv"), (",".join(cells) + "\n").encode())


def _printed(name: str) -> list[tuple[Callable, str]]:
    """What was printed of a model, each by its reader and its file."""
    return [(read_report, f"reports/{name}.txt"), (read_risk, f"risks/{name}.txt"), (read_safeable, f"safeables/{name}.txt")]


def _text_of(path: str, model: Model, table: Table) -> str:
    """The text of a file, beside which it has to be said that it is of this model and this table."""
    if check_origin(path, model, table) is None:
        raise Fault(path, "origin", "is missing: nothing says of which model and table it is")
    return Path(path).read_text(encoding="utf-8")


def _level(model: Model) -> Slice:
    """Clear of conflict is present and both aircraft are level, or as near to it as a cell of the grid begins."""
    return Slice(0, nearest(model.own_rate[:-1], 0), nearest(model.intruder_rate[:-1], 0))


def gather(title: str) -> None:
    """The table of the study, the picture of its trade, and its page, whose table leaves out the digests."""
    plan = json.loads(PLAN.read_text(encoding="utf-8"))
    header = ["model", *plan["varied"], *BEHIND]
    rows = [[name, *values, *read_row(Path(f"rows/{name}.csv")).cells] for name, values in plan["models"].items()]
    points = [_point(plan, dict(zip(header, one))) for one in rows]
    first = plan["varied"][0] if plan["varied"] else ""
    save(draw_trade(points, plan["across"], plan["up"], first), Path("pictures/trade.png"))
    write_whole(Path("study.csv"), text_of_rows(header, rows).encode())
    shown = len(header) - len(DIGESTS)
    page = page_of(title, header[:shown], [one[:shown] for one in rows], list(plan["models"]))
    write_whole(Path("page.html"), page.encode())


def _point(plan: dict, cells: dict[str, str]) -> Point:
    first, *others = plan["varied"] or ["model"]
    line = ", ".join(f"{name} {cells[name]}" for name in others)
    return Point(line or "models", cells[first], float(cells[plan["across"]]), float(cells[plan["up"]]))
