"""Tools for those who run firmware by lab."""
