"""What is told of an input that isn't what its author may have meant."""
