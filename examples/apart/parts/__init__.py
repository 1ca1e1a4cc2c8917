"""What `switch` and `group` are made of, a file for each idea."""
