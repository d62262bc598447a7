"""Studies: many models, each compiled, checked and audited, in one table and on one page. The command is `study/run`."""
