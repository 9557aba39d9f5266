"""The search over rows: whole weeks of nurses."""
