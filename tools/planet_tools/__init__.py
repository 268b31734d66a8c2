"""The tools around planet: they make what it reads and read what it writes, so no promise rests on them."""
