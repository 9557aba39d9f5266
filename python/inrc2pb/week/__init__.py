"""The files of a week: values, readers, writers, and their faults."""
