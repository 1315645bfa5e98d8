"""The parts of the page to teach with (tools/lesson.py).

trials.py    trials and tables as values, the files of their runs, sums and k-max values
answers.py   what is read off a report
programs.py  the proved programs
slipped.py   the reference with a slip switched on
markup.py    elements, prose with numbers in it
tables.py    the tables of a trial
drawings.py  dots on a line, pairs and coins
panels.py    all the lists of a trial, with boxes to tick
meanings.py  what a refusal means
words.py     the words of the page, which stand in words/, a text for each chapter
readme.py    the README's own words
samples.py, paths.py  where things stand
chapters/    a file for each chapter
page.py      the whole page, and that of a trial of one's own; page.css and page.js are laid into it

Every number on a page stands in an element whose attribute `data-is` names what it is, as
`w.trial entry 0 1`. The tests look each up in the reference, and let no other number stand.
"""
