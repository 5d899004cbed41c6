"""Scripts for the pages, the gate and the build."""
