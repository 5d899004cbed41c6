/** What the page can begin with. */

const PERSON = `{
  "$schema": "https://json-schema.org/draft/2020-12/schema",
  "$id": "https://example.com/person",
  "type": "object",
  "properties": {
    "name": {"type": "string"},
    "age": {"type": "integer", "minimum": 0}
  },
  "required": ["name"]
}
`;

const FOLDERS = `{
  "type": "object",
  "properties": {
    "name": {"type": "string", "minLength": 1},
    "folders": {"type": "array", "items": {"$ref": "#"}}
  },
  "required": ["name"]
}
`;

const TREE = `{
  "$id": "https://example.com/tree",
  "$dynamicAnchor": "node",
  "type": "object",
  "properties": {
    "data": true,
    "children": {"type": "array", "items": {"$dynamicRef": "#node"}}
  }
}
`;

const STRICT_TREE = `{
  "$id": "https://example.com/strict-tree",
  "$dynamicAnchor": "node",
  "$ref": "tree",
  "unevaluatedProperties": false
}
`;

const ADDRESS = `{
  "allOf": [{
    "properties": {"street": {"type": "string"}, "city": {"type": "string"}},
    "required": ["street", "city"]
  }],
  "properties": {"kind": {"enum": ["home", "work"]}},
  "if": {"properties": {"kind": {"const": "work"}}},
  "then": {"properties": {"company": {"type": "string"}}},
  "unevaluatedProperties": false
}
`;

const CONTACT = `{
  "title": "a contact: by mail, or by telephone",
  "anyOf": [
    {
      "properties": {"mail": {"type": "string", "pattern": "@"}},
      "required": ["mail"]
    },
    {
      "properties": {"telephone": {"type": "string", "minLength": 5}},
      "required": ["telephone"]
    }
  ]
}
`;

const ROUTE = `{
  "properties": {
    "from": {"$ref": "#/$defs/place"},
    "to": {"$ref": "#/$defs/place"}
  },
  "allOf": [
    {"properties": {"from": {"$ref": "#/$defs/place"}}},
    {"properties": {"from": {"$ref": "#/$defs/place"}}}
  ],
  "$defs": {
    "place": {"type": "object", "required": ["latitude", "longitude"]}
  }
}
`;

const ENDLESS = `{
  "$ref": "#/$defs/again",
  "$defs": {"again": {"$ref": "#/$defs/again"}}
}
`;

const HOSTILE = `{
  "title": "backtracking takes 2^30 steps and more for such a pattern; this validator doesn't backtrack",
  "pattern": "^(a+)+$"
}
`;

const IDENTIFIER = `{
  "title": "beyond 2^53, where JavaScript's numbers are rounded",
  "const": 9007199254740993
}
`;

const own = (name, text, instance, panel = "errors", uri = "https://example.com/schema") =>
  ({ name, documents: [{ uri, text }], entry: uri, instance, panel });

/** The examples; the first is shown where the link has no state. */
export const EXAMPLES = [
  own("A person", PERSON, '{"name": "Ada", "age": -1}\n', "errors", "https://example.com/person"),
  own("Folders in folders: a recursive schema", FOLDERS, `{
  "name": "home",
  "folders": [
    {"name": "music", "folders": [{"name": "2026"}, {"name": ""}]},
    {"folders": []}
  ]
}
`),
  {
    name: "Strict trees: $dynamicRef",
    documents: [{ uri: "https://example.com/strict-tree", text: STRICT_TREE },
      { uri: "https://example.com/tree", text: TREE }],
    entry: "https://example.com/strict-tree",
    instance: '{\n  "children": [\n    {"daat": 1}\n  ]\n}\n',
    panel: "errors",
  },
  own("An address: unevaluatedProperties", ADDRESS, `{
  "street": "Main Street 1",
  "city": "Springfield",
  "kind": "home",
  "company": "ACME"
}
`),
  own("One of two: anyOf, condensed", CONTACT, '{"mail": "ada", "telephone": 5}\n', "condensing"),
  own("One problem in several ways: merged", ROUTE, '{"from": {"latitude": 52}, "to": {}}\n', "condensing"),
  own("A reference without end: TooLarge", ENDLESS, "1\n"),
  own("A hostile pattern", HOSTILE, `"${"a".repeat(60)}!"\n`),
  own("A large integer", IDENTIFIER, "9007199254740992\n"),
];

/** The state that shows an example. */
export function stateOfExample({ documents, entry, instance, panel }) {
  return {
    documents: documents.map((it) => ({ ...it })), selected: 0, entry, instance, panel, format: "detailed",
    isMerging: false,
  };
}
