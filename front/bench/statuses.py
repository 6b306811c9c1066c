"""How ./bench ends: its statuses, beside that of a command that stops (front/ending.py), 2, for what cannot be used."""

SETTLED, CLASH, REFUSED, DISAGREE = 0, 1, 3, 4
