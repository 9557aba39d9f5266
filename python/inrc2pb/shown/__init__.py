"""Rosters as tables, pages, calendars and words."""
