"""What the programs of tools/ share. Python 3.9 and its standard library are enough."""
