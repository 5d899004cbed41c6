"""The calls of pip's `jsonschema`, over the validator: for one schema, with values in and errors in a tree out.

    validator = validator_for({"type": "object", "required": ["name"]})
    validator.is_valid({"name": "Ada"})
    best_match(validator.iter_errors({})).message    # "'name' is a required property"
"""
from .errors import DetailedError, SchemaError
from .relevance import best_match, by_relevance, relevance
from .validator import Validator, validate, validator_for

__all__ = ["DetailedError", "SchemaError", "Validator", "best_match", "by_relevance", "relevance", "validate",
           "validator_for"]
