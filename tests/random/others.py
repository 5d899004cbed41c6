"""Verdicts of the package `jsonschema`, where it is installed; `judge` and `OlderJudge` are none where it isn't."""
try:
    from jsonschema import Draft201909Validator, Draft202012Validator, _legacy_keywords
    from jsonschema.validators import validator_for
    from referencing import Registry, Resource
    from referencing.exceptions import Unresolvable
    from referencing.jsonschema import DRAFT202012, specification_with
except ImportError:
    judge = OlderJudge = None
else:

    def members(value):
        """All members of a value, at any depth."""
        if isinstance(value, dict):
            yield from value.items()
            for it in value.values():
                yield from members(it)
        elif isinstance(value, list):
            for it in value:
                yield from members(it)

    def texts(value):
        """All texts in a value, the names of members too."""
        if isinstance(value, str):
            yield value
        elif isinstance(value, (list, dict)):
            for it in [*value, *value.values()] if isinstance(value, dict) else value:
                yield from texts(it)

    def patterns(documents):
        """What stands where patterns do."""
        for name, value in (it for _, schema in documents for it in members(schema)):
            if name == "pattern":
                yield value
            elif name == "patternProperties" and isinstance(value, dict):
                yield from value

    def names_an_end(documents):
        """Whether a pattern has a `$`."""
        return any("$" in it for it in patterns(documents) if isinstance(it, str))

    def at_the_end(instance):
        """Why an instance is left out where a pattern has a `$`."""
        if any(it.endswith("\n") for it in texts(instance)):
            return "its $ also matches before a last line feed"
        return None

    def judge(documents, entry, instance):
        """The verdict, and none; or why the case is left out."""
        all_members = [it for _, schema in documents for it in members(schema)]
        why = left_out(all_members, entry) or names_an_end(documents) and at_the_end(instance)
        if why:
            return None, f"left out: {why}"
        registry = Registry().with_resources([(uri, DRAFT202012.create_resource(it)) for uri, it in documents])
        return Draft202012Validator({"$ref": entry}, registry=registry).is_valid(instance), None

    def left_out(all_members, entry):
        """Where that package is known not to do what the standard says."""
        names = {name for name, _ in all_members}
        references = [(name, value) for name, value in [*all_members, ("$ref", entry)]
                      if name in ("$ref", "$dynamicRef") and is_name(value)]
        if any("%" in it for _, it in references):
            return "it doesn't decode the name of an anchor"
        if "$dynamicAnchor" in names and any(name == "$ref" for name, _ in references):
            return "it follows $ref into the dynamic scope"
        return None

    def is_name(reference):
        fragment = reference.partition("#")[2] if isinstance(reference, str) else ""
        return fragment != "" and not fragment.startswith("/")

    evaluated_items = _legacy_keywords.find_evaluated_item_indexes_by_schema
    evaluated_members = _legacy_keywords.find_evaluated_property_keys_by_schema

    def without(schema, keyword):
        return {name: it for name, it in schema.items() if name != keyword} if isinstance(schema, dict) else schema

    def items_of_2019(validator, instance, schema):
        """The items that are evaluated. The package also counts those that `contains` looks at, as 2020-12 does."""
        return evaluated_items(validator, instance, without(schema, "contains"))

    def members_of_2019(validator, instance, schema):
        """The members that are evaluated: all where these keywords apply a schema. The package takes the names in it
        for theirs."""
        if isinstance(schema, dict) and any(
                isinstance(schema.get(name), dict) for name in ("additionalProperties", "unevaluatedProperties")):
            return [*instance]
        return evaluated_members(validator, instance, schema)

    def unevaluated_properties(validator, argument, instance, schema):
        """An error for each member that nothing else evaluates, and that isn't as it must be."""
        if isinstance(instance, dict):
            found = members_of_2019(validator, instance, without(schema, "unevaluatedProperties"))
            for name in instance.keys() - {*found}:
                yield from validator.descend(instance[name], argument)

    # (These functions call themselves by the names of the package.)
    _legacy_keywords.find_evaluated_item_indexes_by_schema = items_of_2019
    _legacy_keywords.find_evaluated_property_keys_by_schema = members_of_2019
    Draft201909Validator.VALIDATORS["unevaluatedProperties"] = unevaluated_properties

    class OlderJudge:
        """The package by an older draft, for documents that may refer to one another; the first is applied."""

        def __init__(self, dialect, documents):
            specification = specification_with(dialect)
            pairs = [(uri, Resource.from_contents(it, default_specification=specification)) for uri, it in documents]
            validator = validator_for({"$schema": dialect})
            self.validator = validator({"$ref": documents[0][0]}, registry=Registry().with_resources(pairs))
            self.names_an_end = names_an_end(documents)

        def verdict(self, instance):
            """The verdict, and none; or why there is none."""
            if self.names_an_end and (why := at_the_end(instance)):
                return None, f"left out: {why}"
            try:
                return self.validator.is_valid(instance), None
            except RecursionError:
                return None, "the other implementation recurses without end"
            except Unresolvable:
                return None, "the other implementation doesn't find what is referred to"
            except TypeError:
                return None, "the other implementation doesn't know a boolean in items"
            except AttributeError:
                return None, "the other implementation takes names in dependencies for schemas"
            except BaseException as error:
                # (Of a module in Rust that it uses, which can't be named here.)
                if type(error).__name__ != "PanicException":
                    raise
                return None, "the other implementation recurses without end"

    def left_out_of_older(dialect, documents):
        """Where that package is known not to do what an older draft says."""
        names = {name for _, schema in documents for name, _ in members(schema)}
        if dialect == "2019-09" and "$recursiveRef" in names and len(identified(documents)) > 1:
            return "it follows $recursiveRef through adjacent resources alone"
        return None

    def identified(documents):
        """The documents, and the resources in them that have an identifier."""
        return [*documents, *(name for _, it in documents for name, _ in members(it) if name == "$id")]
