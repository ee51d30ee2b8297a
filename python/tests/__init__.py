"""Tests of labtools, of labdev, and of lab from outside."""
