"""Tools around arcv, for network engineers: one module an idea, with thin commands in bin/. Python 3 alone.

Nothing of this package is proved. What it finds out it asks of the program."""
