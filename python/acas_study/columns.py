"""The columns of the table of a study."""

COUNTED = (
    "layers", "states", "bytes", "cells", "advised", "lines", "certified", "reported", "clear", "advised_share", "reported_share",
    "mean_risk", "mean_risk_clear", "risk_ratio", "safeable", "open", "near", "open_share",
)
"""The columns behind the name of the model and what is varied. `cells` have a present advisory and a second, `advised` are those
with a line of the report, `lines` are those of the report. `advised_share` is of the cells, `reported_share` of the lines.

The next three are of the states at the horizon under the first advisory, clear of conflict, each of which counts the same. `mean_risk`
is the mean of the upper bounds of the chance of contact under the table, `mean_risk_clear` that of the lower bounds under always clear,
and `risk_ratio` the first over the second: so the ratio of the two mean chances is at most that.

The last four are of the clear cells: how many of them an advisory keeps safe that is given a second later, of how many none is shown to do
so, and in how many contact may come within the second; and `open_share` is the second number over that of all clear cells."""
DIGESTS = ("model_sha256", "table_sha256")
"""The last columns: the digests of the two files that a row is of, as `sha256sum` prints them."""
BEHIND = (*COUNTED, *DIGESTS)
"""All columns behind the name of the model and what is varied."""
