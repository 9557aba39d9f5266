"""Solvers of linear and integer programs, and of whole models."""
