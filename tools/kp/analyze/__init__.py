"""What of a cluster isn't as somebody meant it, as far as the program's answers bear it out."""
