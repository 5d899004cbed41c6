"""What scripts share: running a program under limits, the worked rows, random cases, the table of the interface."""
