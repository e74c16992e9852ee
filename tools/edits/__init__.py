"""What bin/edits does: has the prover try wrong bodies, each of which it must refuse.

    edit.py       reads edits, and puts them into the text of a crate
    functions.py  finds the functions of a Rattle source
    places.py     finds the functions that an edit changes
    checker.py    copies a crate, and has the prover check it with other text
    verdict.py    judges what the prover prints
    notes.py      keeps what earlier runs found
    trials.py     tries the edits of a crate, several at once
    report.py     prints the table
    command.py    reads the command line
"""
