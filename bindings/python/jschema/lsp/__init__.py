"""A language server for JSON and YAML files with schemas, and for schemas: LSP 3.17 over standard input and output.

    python -m jschema.lsp
"""
from .server import main

__all__ = ["main"]
