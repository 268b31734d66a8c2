"""The words of programs and of files of lines as definitions have them, and syntax for editors by them."""
