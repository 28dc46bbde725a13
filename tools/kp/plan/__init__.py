"""What a change of a cluster does to those who connect."""
