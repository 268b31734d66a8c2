"""Says what is wrong, where, and what helps, behind the note by which the program refuses something."""
