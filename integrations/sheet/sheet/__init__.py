"""Setup sheets of stepmill: one page from what `compile`, `report` and `verify` give."""
