"""What all tools share."""
