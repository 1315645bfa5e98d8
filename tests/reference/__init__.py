"""An independent reference of document 01, "Offer trials by exchange of paired shops".

Written from the paper alone, and from document 02 where it asks for more, for comparison with
another implementation.

refusals.py   the refusal numbers and the conditions that several calls share
method.py     e, k-max and its offer, c(K), put-back sets, a step's record, the stopping rule, counts
table.py      a lent table: its refusals and its full run
run.py        a run taken step by step: begin, step, the clauses of refusal 14
designs.py    trials of pairs, and of shops without partners: all in which these differ
trial.py      the trial record: its refusals, its table, its full run
aside.py      offers of a trial that are set aside, and the run of those that remain
trialfile.py  reader and writer of trial files
adjusted.py   adjusted figures of tables and trials, by trying every e
balanced.py   balanced tables, their full runs, and the text of the program `balanced`
report.py     the text of the report program
sheet.py      the text of the program `adjusted`
view.py       a place of a view of lent values
ccall.py      the calls for C
slips.py      the reference with a slip switched on, for the page to teach with

A refusal is a result like any other: `Refused(number)` is returned, never raised.
Lent buffers are mutable lists (f64) or bytearrays; a refused call leaves them
alone. Where a buffer is given as None, the call behaves as with one long enough.
"""
