"""ELF files: functions, lines, call frames."""
