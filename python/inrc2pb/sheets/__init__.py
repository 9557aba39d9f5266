"""The files of a ward from a spreadsheet."""
