"""JSON Schema 2020-12, by a validator in which every function is proved.

    import jschema
    schemas = jschema.Schemas({"https://example.com/config": open("config.schema.json", "rb").read()})
    schemas.is_valid("https://example.com/config", b'{"age":-1}')
"""
from .engine import FORMATS, Answer, Engine
from .errors import EngineError, EngineNotFound, Refused, ValidationError, best_first
from .faults import NotJson
from .interface import VERSION as __version__
from .library import LibraryEngine
from .positions import Position, Text
from .program import ProgramEngine
from .schemas import Schemas
from .upgrading import upgrade
from .validators import DetailedError, SchemaError, Validator, best_match, validate, validator_for

__all__ = ["FORMATS", "Answer", "DetailedError", "Engine", "EngineError", "EngineNotFound", "LibraryEngine", "NotJson",
           "Position", "ProgramEngine", "Refused", "SchemaError", "Schemas", "Text", "ValidationError", "Validator",
           "__version__", "best_first", "best_match", "upgrade", "validate", "validator_for"]
