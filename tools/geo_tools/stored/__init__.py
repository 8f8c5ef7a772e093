"""What is stored beside scripts and read by the gate: made by rules of their own, never from the output of the program."""
