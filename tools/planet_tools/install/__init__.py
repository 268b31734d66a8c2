"""What is installed, where, and how it is taken away again."""
