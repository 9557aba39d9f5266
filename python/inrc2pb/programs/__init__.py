"""The program `inrc2pb`, other processes, and their time."""
