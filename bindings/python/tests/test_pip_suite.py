"""The tests of pip's `jsonschema` that speak of draft 2020-12, on our validator: each passes, or is listed with a
reason and fails."""
import importlib
import importlib.metadata
import types
import unittest
from unittest import mock

import jschema
from jschema.validators import best_match

# The version whose tests the reasons are about.
VERSION = "4.26"
try:
    theirs = importlib.import_module("jsonschema.tests.test_validators")
    if not importlib.metadata.version("jsonschema").startswith(VERSION):
        theirs = None
except ImportError:
    theirs = None

WHY = f"needs pip's jsonschema {VERSION} with its tests"


class Ours(jschema.Validator):
    """Our validator where theirs is made: of formats and old resolvers it knows nothing."""

    def __init__(self, schema, **given):
        unknown = given.keys() - {"registry"}
        if unknown:
            raise TypeError(f"there is no {', '.join(sorted(unknown))}")
        super().__init__(schema, given.get("registry"))


def validate(instance, schema):
    Ours.check_schema(schema)
    Ours(schema).validate(instance)


def patched():
    """Their names with ours behind them, as the tests look them up. (The classes of older drafts too: most of what the
    tests ask of them is so in 2020-12.)"""
    older = {f"Draft{number}Validator": type("Older", (Ours,), {}) for number in ("3", "4", "6", "7", "201909")}
    validators = types.SimpleNamespace(**older, Draft202012Validator=Ours, _LATEST_VERSION=Ours, validate=validate)
    exceptions = types.SimpleNamespace(ValidationError=jschema.ValidationError, SchemaError=jschema.SchemaError,
                                       best_match=best_match)
    return mock.patch.multiple(theirs, validators=validators, exceptions=exceptions)


def outcome(name):
    """What comes of a test by its class and method: None if it passes, else its error."""
    kind, method = name.split(".")
    result = unittest.TestResult()
    getattr(theirs, kind)(method).run(result)
    return next((trace.strip().splitlines()[-1] for _, trace in (*result.errors, *result.failures)), None)


# Each test that can't pass, by the reason.
FAILING = {
    "asks for what an older draft had": """
        TestValidationErrorMessages.test_additionalItems_multiple_failures
        TestValidationErrorMessages.test_additionalItems_single_failure
        TestValidationErrorMessages.test_contains_draft_6
        TestValidationErrorMessages.test_dependencies_list_draft3
        TestValidationErrorMessages.test_dependencies_list_draft7
        TestValidationErrorMessages.test_dependencies_single_element
        TestValidationErrorMessages.test_heterogeneous_additionalItems_with_Items
        TestValidationErrorMessages.test_object_with_named_type_failure
        TestValidationErrorMessages.test_object_without_title_type_failure_draft3
        TestValidationErrorDetails.test_additionalItems
        TestValidationErrorDetails.test_additionalItems_with_items
        TestValidationErrorDetails.test_multiple_nesting
        TestValidationErrorDetails.test_type
        TestValidate.test_draft3_validator_is_chosen
        TestValidate.test_draft4_validator_is_chosen
        TestValidate.test_draft6_validator_is_chosen
        TestValidate.test_draft7_validator_is_chosen""",
    "JSON has neither names that are no strings, nor other objects of Python": """
        TestValidationErrorMessages.test_heterogeneous_properties_additionalProperties
        TestValidationErrorMessages.test_heterogeneous_properties_unevaluatedProperties
        TestValidationErrorMessages.test_maxProperties_0
        TestDraft202012Validator.test_non_existent_properties_are_ignored""",
    "`format` is an annotation: there is no format_checker": """
        TestValidationErrorMessages.test_invalid_format_default_message
        TestDraft202012Validator.test_evolve
        TestDraft202012Validator.test_it_does_not_validate_formats_by_default
        TestDraft202012Validator.test_it_returns_true_for_formats_it_does_not_know_about
        TestDraft202012Validator.test_it_validates_formats_if_a_checker_is_provided
        TestDraft202012Validator.test_schema_with_invalid_regex_with_disabled_format_validation""",
    "the types are JSON's, and the keywords the standard's: nothing is extended": """
        TestDraft202012Validator.test_check_redefined_sequence
        TestDraft202012Validator.test_evolve_with_subclass
        TestDraft202012Validator.test_is_type_evades_bool_inheriting_from_int
        TestDraft202012Validator.test_is_type_is_false_for_invalid_type
        TestDraft202012Validator.test_is_type_is_true_for_valid_type
        TestDraft202012Validator.test_it_can_validate_with_decimals
        TestDraft202012Validator.test_it_implements_the_validator_protocol
        TestDraft202012Validator.test_it_properly_formats_tuples_in_errors
        TestDraft202012Validator.test_non_string_custom_type""",
    "RefResolver, which is deprecated there, isn't here: `registry` is": """
        TestValidationErrorDetails.test_ref
        TestDraft202012Validator.test_it_creates_a_ref_resolver_if_not_provided
        TestDraft202012Validator.test_it_upconverts_from_deprecated_RefResolvers
        TestDraft202012Validator.test_it_upconverts_from_yet_older_deprecated_legacy_RefResolvers""",
    "each keyword has an error of its own, at its own place": """
        TestValidationErrorMessages.test_unevaluated_properties_invalid_against_subschema
        TestValidationErrorDetails.test_contains_none
        TestValidationErrorDetails.test_contains_too_few
        TestValidationErrorDetails.test_contains_too_many""",
    "a schema is checked once, before any instance, by the validator and not by a meta-schema": """
        TestValidate.test_schema_error_message
        TestReferencing.test_custom_registries_do_not_autoretrieve_remote_resources""",
}
REASONS = {name: reason for reason, names in FAILING.items() for name in names.split()}


@unittest.skipUnless(theirs, WHY)
class Suite(unittest.TestCase):
    def test_suite(self):
        classes = ("TestValidationErrorMessages", "TestValidationErrorDetails", "TestDraft202012Validator",
                   "TestValidate", "TestThreading", "TestReferencing")
        names = [f"{kind}.{method}" for kind in classes for method in dir(getattr(theirs, kind))
                 if method.startswith("test")]
        with patched(), mock.patch.object(theirs.TestDraft202012Validator, "Validator", Ours):
            for name in names:
                with self.subTest(name):
                    error = outcome(name)
                    if name in REASONS:
                        self.assertIsNotNone(error, "passes, so it needs no reason")
                    else:
                        self.assertIsNone(error)
        self.assertLessEqual(REASONS.keys(), set(names))
