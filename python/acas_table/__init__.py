"""Reads the files of `acas`, and what it prints, for numpy, and writes tables.

`read_model` reads a model, `read_table` a table of it, `read_report` what `acas audit` prints, `read_regions` what `acas regions` and `acas
manoeuvre` print, `read_line` one line of these three, `read_replay` what `acas replay` prints, `read_risk` what `acas risk` prints, and
`read_safeable` what `acas safeable` prints. `read_report_of`, `read_replay_of`, `read_risk_of` and `read_safeable_of` read the file of one, which
has to be of a model and a table. `read_separations` reads the table that `study/separation` writes. `compare` says where two tables differ,
and `to_xarray` gives the numbers of one named axes. `write_table` writes a table of a model, and `table_of_advice` gives an advice that was made
elsewhere the bounds that it needs. What is not as it has to be is a `Fault`, which names the field.
"""
from acas_texts import Fault
from acas_table.comparison import Comparison, compare
from acas_table.dataset import to_xarray
from acas_table.evaluation import Entries, table_of_advice
from acas_table.flight import Flight, Manoeuvre, Segment, check_flight
from acas_table.model import Advisory, Model, SigmaPoint, read_model
from acas_table.origin import check_origin, read_replay_of, read_report_of, read_risk_of, read_safeable_of
from acas_table.replay import Replay, check_replay, read_replay
from acas_table.report import BoxLine, CellLine, Regions, Report, numbered, read_line, read_regions, read_report
from acas_table.risk import RISK, Risk, gridded, ratios, read_risk
from acas_table.safeable import Safeable, check_audit, clear_cells, read_safeable
from acas_table.separation import SEPARATION, Separations, read_separations
from acas_table.table import ENTRY, NO_ADVICE, Header, Table, read_table
from acas_table.whole import whole_lines
from acas_table.writing import write_table

__all__ = [
    "ENTRY", "NO_ADVICE", "RISK", "SEPARATION", "Advisory", "BoxLine", "CellLine", "Comparison", "Entries", "Fault", "Flight", "Header",
    "Manoeuvre", "Model", "Regions", "Replay", "Report", "Risk", "Safeable", "Segment", "Separations", "SigmaPoint", "Table", "check_audit",
    "check_flight", "check_origin", "check_replay", "clear_cells", "compare", "gridded", "numbered", "ratios", "read_line", "read_model",
    "read_regions", "read_replay", "read_replay_of", "read_report", "read_report_of", "read_risk", "read_risk_of", "read_safeable",
    "read_safeable_of", "read_separations", "read_table", "table_of_advice", "to_xarray", "whole_lines",
    "write_table",
]
