"""Checks that share no rule with the program or with the other tools, on purpose."""
