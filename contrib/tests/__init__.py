"""The tries of the commands and of the program."""
