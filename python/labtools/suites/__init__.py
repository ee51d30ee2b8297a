"""Suites: tests that are scripts with logs."""
