"""How fast the program `fluke` is, for bin/measure: the scenarios, how they are measured, the rows, and the table of docs/PERFORMANCE.md."""
