"""What the written formats say of a run of bcsg, worked out a second time, with no code of the program."""
