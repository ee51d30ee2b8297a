"""Tools for those who change lab."""
