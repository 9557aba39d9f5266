"""The best roster of a week or of a period, and its bound."""
