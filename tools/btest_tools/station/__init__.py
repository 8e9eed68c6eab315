"""A station on the line: the folder of a product, the player, the test of a board, the record."""
