"""What the rules say of a week and its rosters."""
