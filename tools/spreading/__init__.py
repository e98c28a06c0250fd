"""The parts of tools/spread-sessions: the cutter of a text of sessions (cutter.py), the folder of pieces and answers (room.py),
the programs that run many pieces side by side (engines.py), and the way from the text to the answers (spread.py).
"""
