"""Scripts and platform files, read without running them."""
