"""Boards and snapshots."""
