"""What hosts/border.py does: keeps the libraries for C, Rust and Python as the engine is.

    engine.py   reads the engine's enums
    parts.py    makes parts of files from them
    compare.py  compares what is not made
"""
