"""Makes manual pages of the pages of docs."""
