"""`python -m jschema.lsp`."""
import sys

from .server import main

sys.exit(main())
