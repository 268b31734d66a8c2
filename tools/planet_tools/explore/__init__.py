"""The command `explore`: a page that looks into a run."""
