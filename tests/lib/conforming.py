"""Which values conform to a JSON Schema, by a reading of its own, and schemas, values and templates that are drawn at random."""
import json
import re

TYPES = {"null": type(None), "boolean": bool, "integer": int, "number": int, "string": str, "array": list, "object": dict}
NARROWING = ("minimum", "maximum", "exclusiveMinimum", "exclusiveMaximum", "minLength", "minItems")
FIELDS = ("a", "b", "c")
TAGS = [["x", "y", "z"], ["x", "y", "z"], [0, 1, 2], [True, False, 2]]  # of which one list tells the maps of a union apart
STOP = "stop: no more"  # the name of a template that is not there, whose call is meant to end the run
FORMS = ("%v", "%v", "%v", "%s", "%s", "%d", "%d", "%q", "%x", "%X", "%o", "%b", "%c", "%t", "%5d", "%05d", "%+d", "% d", "%-6s", "%6s", "%.1s", "%7v", "%-v", "%+v", "%%")
HEAD = "https://json-schema.org/draft/2020-12/schema"
DRAFT_04 = "http://json-schema.org/draft-04/schema#"
DRAFTS = (HEAD, "https://json-schema.org/draft/2019-09/schema", "http://json-schema.org/draft-07/schema#", "http://json-schema.org/draft-06/schema", DRAFT_04)


SCHEMAS = ("items", "additionalProperties", "additionalItems", "contains", "not", "if", "then", "else", "propertyNames")


def has_type(name, value):
    return type(value) is TYPES[name]


def is_equal(one, other):
    """Equality of JSON: true is not 1."""
    return json.dumps(one, sort_keys=True) == json.dumps(other, sort_keys=True)


def name_of(root, schema):
    """The name of a definition, as its draft writes it."""
    if year(root) >= 2019:
        return schema.get("$anchor", schema.get("$dynamicAnchor"))
    return schema.get("id" if year(root) == 4 else "$id", "#")[1:]


def pointed(root, reference):
    """What a reference within a document points to; the names in the schemas that are drawn have no escapes but these."""
    if reference[1:] and not reference.startswith("#/"):
        return next(it for it in root["$defs" if year(root) >= 2019 else "definitions"].values() if name_of(root, it) == reference[1:])
    at = root
    for part in filter(None, reference[1:].replace("%25", "%").split("/")):
        at = at[part.replace("~1", "/").replace("~0", "~")]
    return at


def year(root):
    """The draft of a document, as a number that grows."""
    head = root.get("$schema", HEAD) if isinstance(root, dict) else HEAD
    return {HEAD: 2020, DRAFTS[1]: 2019, DRAFTS[2]: 7, DRAFTS[3]: 6, DRAFT_04: 4}[head]


def map_rules(root, schema, value):
    """The keywords that speak of a map."""
    patterns = schema.get("patternProperties", {})

    def is_other(key):
        return key not in schema.get("properties", {}) and not any(re.search(pattern, key) for pattern in patterns)

    def is_met(it):
        return all(key in value for key in it) if isinstance(it, list) else conforms(root, it, value)

    return {
        "required": lambda it: all(key in value for key in it),
        "properties": lambda it: all(conforms(root, it[key], value[key]) for key in it if key in value),
        "patternProperties": lambda it: all(conforms(root, it[pattern], value[key]) for pattern in it for key in value if re.search(pattern, key)),
        "additionalProperties": lambda it: all(conforms(root, it, value[key]) for key in value if is_other(key)),
        "propertyNames": lambda it: year(root) < 6 or all(conforms(root, it, key) for key in value),
        "dependentSchemas": lambda it: year(root) < 2019 or all(is_met(it[key]) for key in it if key in value),
        "dependencies": lambda it: year(root) >= 2019 or all(is_met(it[key]) for key in it if key in value),
    }


def list_rules(root, schema, value):
    """The keywords that speak of a list."""
    prefixes = schema.get("prefixItems", []) if year(root) == 2020 else []

    def first(it):
        return all(conforms(root, one, item) for one, item in zip(it, value))

    return {
        "items": lambda it: first(it) if isinstance(it, list) else all(conforms(root, it, one) for one in value[len(prefixes):]),
        "prefixItems": lambda it: first(prefixes),
        "additionalItems": lambda it: not isinstance(schema.get("items"), list) or all(conforms(root, it, one) for one in value[len(schema["items"]):]),
        "contains": lambda it: year(root) < 6 or any(conforms(root, it, one) for one in value),
        "minItems": lambda it: len(value) >= it,
    }


def number_rules(schema, value):
    """The keywords that speak of a number."""
    return {
        "minimum": lambda it: value > it or value == it and schema.get("exclusiveMinimum") is not True,
        "maximum": lambda it: value < it or value == it and schema.get("exclusiveMaximum") is not True,
        "exclusiveMinimum": lambda it: type(it) is bool or value > it,
        "exclusiveMaximum": lambda it: type(it) is bool or value < it,
    }


def rules_of(root, schema, value):
    """The keywords that speak of a value of this kind."""
    if isinstance(value, dict):
        return map_rules(root, schema, value)
    if isinstance(value, list):
        return list_rules(root, schema, value)
    if isinstance(value, str):
        return {"minLength": lambda it: len(value) >= it}
    return number_rules(schema, value) if type(value) is int else {}


def conforms(root, schema, value):
    """Whether a value conforms to a schema of a document: each keyword says so by itself."""
    if isinstance(schema, bool):
        return schema
    if "$ref" in schema and year(root) < 2019:
        return conforms(root, pointed(root, schema["$ref"]), value)
    rules = {
        "type": lambda it: any(has_type(name, value) for name in ([it] if isinstance(it, str) else it)),
        "const": lambda it: year(root) < 6 or is_equal(it, value),
        "enum": lambda it: any(is_equal(one, value) for one in it),
        "anyOf": lambda it: any(conforms(root, one, value) for one in it),
        "oneOf": lambda it: sum(conforms(root, one, value) for one in it) == 1,
        "allOf": lambda it: all(conforms(root, one, value) for one in it),
        "not": lambda it: not conforms(root, it, value),
        "if": lambda it: year(root) < 7 or conforms(root, schema.get("then" if conforms(root, it, value) else "else", True), value),
        "$ref": lambda it: conforms(root, pointed(root, it), value),
        **rules_of(root, schema, value),
    }
    return all(rules[keyword](it) for keyword, it in schema.items() if keyword in rules)


def drawn_schema(draw, depth):
    """A schema, in which names of definitions may stand."""
    kind = draw.random()
    if depth <= 0 or kind < 0.25:
        return draw.choice([
            True, {}, {"type": "string"}, {"type": "integer"}, {"type": "boolean"}, {"type": "null"}, {"type": ["string", "null"]},
            {"type": "number", draw.choice(NARROWING[:4]): draw.randrange(-2, 3)}, {"type": "string", "minLength": draw.randrange(2)},
            {"const": draw.choice([None, True, 0, 1, "", "x", [], {}, [1], {"a": 1}])}, {"enum": draw.sample([None, False, True, 0, 1, "", "x", []], 3)},
            {"type": "array", "items": {"type": "string"}, "minItems": draw.randrange(3)}, {"type": "array", "items": {"type": "string"}},
            {"type": "string", "enum": ["", "x", 1]}, {"$ref": "#/$defs/" + draw.choice(["n", "m~1o", "p%25q"])}, {"$ref": "#"}])
    if kind < 0.45:
        return {"type": "array", "items": drawn_schema(draw, depth - 1), **({"minItems": draw.randrange(4)} if draw.random() < 0.5 else {})}
    if kind < 0.5:
        return drawn_tuple(draw, depth)
    if kind < 0.55:
        return drawn_parts(draw, depth)
    if kind < 0.6:
        return drawn_union(draw, depth)
    if kind < 0.66:
        keywords = draw.choice([["anyOf"], ["oneOf"], ["anyOf"], ["oneOf"], ["anyOf", "oneOf"]])
        out = {keyword: [drawn_schema(draw, depth - 1) for _ in range(draw.randrange(1, 4))] for keyword in keywords}
        return {**out, "type": ["object", "string"]} if draw.random() < 0.3 else out
    return drawn_object(draw, depth)


def drawn_union(draw, depth):
    """A schema of maps that a constant tells apart, mostly."""
    tags = draw.choice(TAGS)

    def tag():
        return draw.choice([{"const": draw.choice(tags)}, {"const": draw.choice(tags)}, {"enum": draw.sample(tags, 2)}, {"enum": [draw.choice(tags), None, 1]},
                            {"type": "string"}, {"type": "integer"}, {"type": ["string", "boolean", "null"], "enum": [*tags, None]},
                            {"anyOf": [{"const": tags[0]}, {"const": tags[1]}]}])
    maps = [{"type": "object", "properties": {"a": tag(), **{name: drawn_schema(draw, draw.randrange(min(2, depth))) for name in draw.sample(["b", "c"], draw.randrange(1, 3))}},
             "additionalProperties": False} for _ in range(draw.randrange(2, 5))]
    for one in maps:
        one["required"] = [name for name in one["properties"] if draw.random() < 0.9]
    return {draw.choice(["anyOf", "oneOf"]): [*maps, {"type": "null"}] if draw.random() < 0.1 else maps}


def drawn_tuple(draw, depth):
    """A schema of lists whose first items have schemas of their own, as 2020-12 or earlier drafts write them."""
    first, more = [drawn_schema(draw, depth - 1) for _ in range(draw.randrange(3))], drawn_schema(draw, depth - 1)
    out = {"type": "array", "minItems": draw.randrange(3)}
    if draw.random() < 0.5:
        return {**out, "prefixItems": first, **({"items": more} if draw.random() < 0.7 else {})}
    return {**out, "items": first, **({"additionalItems": more} if draw.random() < 0.7 else {})}


def drawn_parts(draw, depth):
    """Schemas together, or one beside a reference."""
    if draw.random() < 0.3:
        beside = draw.choice([drawn_object(draw, depth - 1), {"type": draw.choice(["object", "string", ["array", "null", "string"]])}, {"const": draw.choice([1, "x", None])},
                              {"enum": draw.sample([False, 0, 1, "", "x", None], 3)}, {"type": "array", "minItems": draw.randrange(3)}, {"minItems": draw.randrange(3)}])
        return {**beside, "$ref": "#/$defs/" + draw.choice(["n", "m~1o", "p%25q"])}
    parts = [drawn_part_of_all(draw, depth - 1) for _ in range(draw.randrange(1, 4))]
    return {**(drawn_object(draw, depth - 1) if draw.random() < 0.3 else {}), "allOf": parts}


def drawn_part_of_all(draw, depth):
    """A schema of those that values have to conform to together."""
    return draw.choice([drawn_schema(draw, depth), drawn_object(draw, depth), {"$ref": "#/$defs/" + draw.choice(["n", "m~1o", "p%25q"])},
                        {"required": [draw.choice(FIELDS)]}, {"minItems": draw.randrange(3)}, {"properties": {draw.choice(FIELDS): drawn_schema(draw, depth)}}])


def narrowing(draw):
    """A keyword that narrows a schema of maps further, as a schema of some keys."""
    some = draw.choice([{"required": [draw.choice(FIELDS)]}, {"properties": {draw.choice(FIELDS): draw.choice([{"type": "string"}, {"const": 1}, False])}}, {"minLength": 1}])
    return draw.choice([{"not": some}, {"if": some, "then": {"required": ["a"]}}, {"if": some, "else": {"required": ["b"]}}, {"propertyNames": {"enum": ["a", "b"]}},
                        {"dependentSchemas": {draw.choice(FIELDS): some}}, {"dependencies": {draw.choice(FIELDS): draw.choice([some, ["a"]])}}, {"contains": {"type": "string"}},
                        {"patternProperties": {draw.choice(["^a", "b$", "^[bc]$", "^.$"]): draw.choice([{"type": "string"}, {"type": ["integer", "string"]}, True, {"minLength": 1}])}},
                        {"patternProperties": {"^[abc]$": {"type": ["string", "array", "object"]}}}, {"allOf": [some]}, {"x-order": 1}])


def drawn_object(draw, depth):
    """A schema of maps, mostly."""
    out = drawn_fields(draw, depth)
    more = draw.random()
    if more < 0.25:
        return {**out, **narrowing(draw)}
    if more < 0.4 and depth > 0:
        return {**out, draw.choice(["anyOf", "oneOf"]): [drawn_part_of_all(draw, depth - 1) for _ in range(draw.randrange(1, 4))]}
    return out


def drawn_fields(draw, depth):
    """A schema of maps, mostly, by their fields alone."""
    names = [name for name in FIELDS if draw.random() < 0.6]
    out = {"properties": {name: drawn_schema(draw, depth - 1) for name in names}}
    if draw.random() < 0.85:
        out["type"] = "object" if draw.random() < 0.8 else ["object", "null"]
    if draw.random() < 0.8:
        out["required"] = [name for name in FIELDS if draw.random() < 0.6]
    more = draw.random()
    if more < 0.5:
        out["additionalProperties"] = False
    elif more < 0.7:
        out["additionalProperties"] = drawn_schema(draw, depth - 1)
    return out


def drawn_document(draw):
    """A whole document, whose definitions do not stand for themselves."""
    names = {name: {"type": "object", "required": ["a"], "properties": {"a": drawn_schema(draw, 0), "b": {"type": "array", "items": drawn_schema(draw, 1)}}}
             for name in ("n", "m/o", "p%q")}
    head, own = draw.choice(DRAFTS), drawn_object(draw, 3)
    while stands_for_itself(own):
        own = drawn_object(draw, 3)
    schema = {"$schema": head, "title": "drawn", **own, "$defs": names}
    out = in_draft_04(schema) if head == DRAFT_04 else in_2020(schema) if head == HEAD else schema
    return by_name(out, draw.choice(["$anchor", "$dynamicAnchor"]) if head == HEAD else "$anchor") if draw.random() < 0.3 else out


def by_name(schema, keyword):
    """A document that is drawn, of which a definition has a name, and each reference to that is by this."""
    if year(schema) >= 2019:
        schema["$defs"]["n"][keyword] = "some"
        return json.loads(json.dumps(schema).replace('"#/$defs/n"', '"#some"'))
    schema["$defs"]["n"]["id" if year(schema) == 4 else "$id"] = "#some"
    return json.loads(json.dumps(schema).replace('"#/$defs/n"', '"#some"').replace("$defs", "definitions"))


def stands_for_itself(schema):
    """Whether the schema of a whole document asks of a value that it conforms to the document: no rule says what that means."""
    if not isinstance(schema, dict):
        return False
    parts = [one for keyword in ("anyOf", "oneOf", "allOf") for one in schema.get(keyword, [])]
    return schema.get("$ref") == "#" or any(map(stands_for_itself, parts))


def in_2020(it):
    """A schema that is drawn, as 2020-12 writes it: without a list of schemas as `items`."""
    if isinstance(it, list):
        return [in_2020(one) for one in it]
    if not isinstance(it, dict):
        return it
    out = {key: in_2020(one) for key, one in it.items()}
    if isinstance(out.get("items"), list):
        out["prefixItems"] = out.pop("items")
        if "additionalItems" in out:
            out["items"] = out.pop("additionalItems")
    return out


def in_draft_04(schema):
    """A schema that is drawn, as draft-04 writes it: without `const`, and with `exclusiveMinimum` as a truth value."""
    if schema is True:
        return {}
    if not isinstance(schema, dict):
        return schema
    out = {}
    for keyword, it in schema.items():
        if keyword in ("properties", "$defs", "patternProperties", "dependentSchemas", "dependencies"):
            out[keyword] = {name: in_draft_04(one) for name, one in it.items()}
        elif keyword in ("anyOf", "oneOf", "allOf", "prefixItems") or keyword == "items" and isinstance(it, list):
            out[keyword] = [in_draft_04(one) for one in it]
        elif keyword == "const":
            out["enum"] = [it]
        elif keyword in ("exclusiveMinimum", "exclusiveMaximum"):
            out[keyword[9:].lower()], out[keyword] = it, True
        else:
            out[keyword] = in_draft_04(it) if keyword in SCHEMAS else it
    return out


def drawn_value(draw, root, schema, depth):
    """A value that may conform to a schema, and mostly does."""
    if depth < 0 or schema is False or draw.random() < 0.03:
        return draw.choice([None, True, 0, "", "x", [], {}])
    if schema is True or not schema:
        return draw.choice([None, True, False, 0, 7, "", "x", [], ["y"], {}, {"a": 1}])
    if "$ref" in schema and len(schema) > 1 and year(root) >= 2019:
        beside = {keyword: it for keyword, it in schema.items() if keyword not in ("$ref", "allOf")}
        return drawn_together(draw, root, {**beside, "allOf": [{"$ref": schema["$ref"]}, *schema.get("allOf", [])]}, depth)
    if "$ref" in schema:
        return drawn_value(draw, root, pointed(root, schema["$ref"]), depth - 1)
    if "const" in schema:
        return schema["const"]
    if "enum" in schema:
        return draw.choice(schema["enum"])
    if "allOf" in schema:
        return drawn_together(draw, root, schema, depth)
    for keyword in ("anyOf", "oneOf"):
        if keyword in schema:
            own = {name: it for name, it in schema.items() if name not in ("anyOf", "oneOf")}
            one = draw.choice(schema[keyword])
            return drawn_together(draw, root, {**own, "allOf": [one]}, depth) if "properties" in own else drawn_value(draw, root, one, depth)
    types = schema.get("type", "object")
    name = types if isinstance(types, str) else draw.choice(types)
    return drawn_of_type(draw, root, schema, depth, name)


def drawn_together(draw, root, schema, depth):
    """A value of the parts of `allOf` and of what stands beside them: the members of one of each, or one of these."""
    own = {keyword: it for keyword, it in schema.items() if keyword != "allOf"}
    values = [drawn_value(draw, root, one, depth) for one in [*([own] if own else []), *schema["allOf"]]]
    if all(isinstance(value, dict) for value in values):
        return {key: member for value in reversed(values) for key, member in value.items()}
    return draw.choice(values)


def drawn_of_type(draw, root, schema, depth, name):
    if name == "object":
        listed = schema.get("properties", {})
        wanted = [key for key in FIELDS if key in schema.get("required", []) or draw.random() < 0.4]
        schemas = {key: schema_of_key(schema, listed, key) for key in wanted}
        return {key: drawn_value(draw, root, one, depth - 1) for key, one in schemas.items() if one is not False}
    if name == "array":
        count = schema.get("minItems", 0) + draw.choice((0, 0, 1, 2)) - (draw.random() < 0.1)
        return [drawn_value(draw, root, schema_of_item(schema, index), depth - 1) for index in range(max(0, count))]
    return {"null": None, "boolean": draw.random() < 0.5, "integer": draw.randrange(-2, 4), "number": draw.randrange(-2, 4),
            "string": draw.choice(["x", "", "long"])}[name]


def schema_of_key(schema, listed, key):
    """A schema to which the value of a key has to conform."""
    found = [one for pattern, one in schema.get("patternProperties", {}).items() if re.search(pattern, key)]
    return listed.get(key, found[0] if found else schema.get("additionalProperties", True))


def schema_of_item(schema, index):
    """A schema to which the item of this index has to conform, by one draft or another."""
    items = schema.get("items", True)
    first = schema.get("prefixItems", items if isinstance(items, list) else [])
    if index < len(first):
        return first[index]
    return schema.get("additionalItems", True) if isinstance(items, list) else items


def drawn_path(draw, scope):
    """An operand: dot or a variable, and fields."""
    if scope[0] == "." and draw.random() < 0.7:
        return "." + draw.choice(["a", "b", "c", "a.b", "b.a"])
    start, fields = draw.choice(scope), draw.choice(["", ".a", ".b", ".c", ".a.b"])
    return fields if start == "." and fields else start + fields


def drawn_printf(draw, scope):
    """A call of printf, mostly with as many arguments as its format has forms, the last of which may be piped."""
    forms = [draw.choice(FORMS) for _ in range(draw.randrange(1, 4))]
    count = sum(form != "%%" for form in forms) + (draw.random() < 0.1)
    paths = [draw.choice([drawn_path(draw, scope), drawn_path(draw, scope), "7", '"x"', "true", "(index . \"a\")"]) for _ in range(count)]
    piped = paths.pop() + " | " if paths and draw.random() < 0.2 else ""
    return "{{%s%s}}" % (piped, " ".join(["printf", '"%s"' % "-".join(forms), *paths]))


def drawn_index(draw, scope):
    """A call of index, by more than one key or by a key of the data."""
    keys = [draw.choice(['"a"', '"b"', '"c"', '"a"', drawn_path(draw, scope), "0", "1", "-1"]) for _ in range(draw.randrange(4))]
    call = " ".join(["index", drawn_path(draw, scope), *keys])
    return draw.choice(["{{%s}}", "{{len (%s)}}", "{{with %s}}{{printf \"%%v\" .}}{{end}}", "{{range %s}}{{.}}{{end}}"]) % call


def drawn_length(draw):
    """A test of how many items there are at PATH."""
    call, number = draw.choice(["eq", "ne", "lt", "le", "gt", "ge"]), draw.randrange(-1, 4)
    return draw.choice([f"{call} (len PATH) {number}", f"{call} {number} (len PATH)", f"len PATH | {call} {number}", "len PATH"])


def drawn_part(draw, scope):
    """An item or a part of a list, mostly after a test of it."""
    path = drawn_path(draw, scope)
    path = draw.choice([path, path, '(index %s "a")' % scope[0]])
    part = draw.choice(["index %s 0", "index %s 0", "index %s 1", "index %s 2", "index %s 0 0", 'index %s 0 "a"', "(index %s 0).a", "slice %s", "slice %s 1",
                        "slice %s 0 1", "slice %s 1 2", "index (slice %s 1) 0", "len (slice %s 1)"])
    used = draw.choice(["{{print (%s)}}", '{{printf "%%v" (%s)}}', "{{len (%s)}}", "{{range %s}}{{end}}"])
    test = draw.choice(["%s", "{{if PATH}}%s{{end}}", "{{if PATH}}%s{{end}}", "{{if not PATH}}none{{else}}%s{{end}}", "{{if and PATH true}}%s{{end}}",
                        "{{with $l := PATH}}%s{{end}}", "{{with PATH}}%s{{end}}", "{{if or PATH true}}%s{{end}}", "{{if ne PATH nil}}%s{{end}}",
                        "{{$l := PATH}}{{if $l}}%s{{end}}", "{{if (PATH)}}{{else}}%s{{end}}", "{{if LENGTH}}%s{{end}}", "{{if LENGTH}}%s{{end}}",
                        "{{if LENGTH}}none{{else}}%s{{end}}", "{{if not (LENGTH)}}%s{{end}}", "{{if and PATH (LENGTH)}}%s{{end}}",
                        "{{if or (not PATH) (LENGTH)}}none{{else}}%s{{end}}", "{{$l := PATH}}{{if PATH}}%s{{end}}",
                        "{{$l := PATH}}{{$l = .a}}{{if $l}}%s{{end}}"]).replace("LENGTH", drawn_length(draw))
    place = draw.choice(["$l", path]) if "$l" in test else "." if test.startswith("{{with") else path
    return test.replace("PATH", path) % (used % (part % place))


def drawn_comparison(draw, scope):
    """A comparison of a path with another or a constant, and what it may tell of the path."""
    name, path = draw.choice(["eq", "ne", "eq", "ne", "lt", "le", "gt", "ge"]), drawn_path(draw, scope)
    asked = draw.choice([path, path, "(index %s \"a\")" % scope[0], "(index . \"a\" \"b\")"])
    other = draw.choice(["nil", "nil", '"x"', '""', "1", "0", "true", "false", drawn_path(draw, scope)])
    used = draw.choice(["{{len %s}}", "{{printf \"%%d\" %s}}", "{{printf \"%%s\" %s}}", "{{lt %s 3}}", "{{%s.a}}", "{{range %s}}{{end}}"])
    used = used % draw.choice([path, ".a", ".a.b"])
    both = draw.choice(["{{if %s}}%s{{else}}%s{{end}}", "{{if not (%s)}}%s{{else}}%s{{end}}", "{{if and (%s) %s}}%s{{end}}"])
    if both.startswith("{{if and"):
        return both % (f"{name} {asked} {other}", path, used)
    return both % (f"{name} {asked} {other}", *draw.sample([used, "none"], 2))


def drawn_tagged(draw, scope):
    """Tests of what tells maps apart, and what may be known then."""
    path = drawn_path(draw, scope)
    start = "" if path == "." else path

    def test(start):
        tag = draw.choice([f"{start}.a", f"{start}.a", f'(index {start or "."} "a")'])
        one, other = map(json.dumps, draw.sample(draw.choice(TAGS), 2))
        return draw.choice([tag, f"not {tag}", f"eq {tag} {one}", f"eq {tag} {one}", f"ne {tag} {one}", f"eq {tag} {one} {other}", f"not (eq {tag} {one})", f"eq {one} {tag}",
                            f"and {start or '.'} (eq {tag} {one})", f"or (eq {tag} {one}) (eq {tag} {other})", f"and (ne {tag} {one}) (ne {tag} {other})",
                            f"eq {tag} {start}.b", f"eq {tag} {one} {start}.b", f"eq {tag} nil"])

    def used(start):
        return draw.choice(["{{len P.b}}", "{{P.b}}", '{{printf "%d" P.b}}', '{{printf "%s" P.b}}', "{{P.b.a}}", "{{P.c}}", "{{len P.c}}", "{{range P.b}}{{end}}",
                            '{{index P.b "a"}}']).replace("P", start)
    def parts(start):
        return f"{{{{if {test(start)}}}}}{used(start)}", used(start) if draw.random() < 0.7 else "none"
    if draw.random() < 0.2:
        body, other = parts("$u")
        return "{{$u := %s}}" % path + body.replace("}}", draw.choice(["}}", "}}", "}}{{$u = .b}}"]), 1) + "{{else}}" + draw.choice([other, used(start)]) + "{{end}}"
    if draw.random() < 0.3:
        body, other = parts("")
        return draw.choice(["{{with ", "{{range "]) + path + "}}" + body + "{{else}}" + other + "{{end}}{{end}}"
    body, other = parts(start)
    more, _ = parts(start)
    return body + draw.choice(["{{else}}", "{{else " + more[2:] + "{{else}}"]) + other + "{{end}}"


def drawn_leaving(draw, scope):
    """A test of which one part mostly leaves a range or ends the run, and what may be known past it."""
    start = draw.choice(["", "", "$e"])
    place = f"{start}.{draw.choice(FIELDS)}"
    test = draw.choice(["not P", "not P", "not P", "eq P nil", 'eq P "x"', 'ne P "x"', "P", 'not (index S "a")', "lt (len P) 1", "or (not P) (not P.a)", "and P P.a"])
    used = draw.choice(["{{len P}}", "{{len P}}", "{{P.a}}", "{{P.a}}", "{{index P 0}}", '{{printf "%s" P}}', "{{range P}}{{end}}", "{{lt P 3}}", "{{len S.a}}", '{{template "w" P}}'])
    leave = draw.choice(["{{continue}}", "{{continue}}", "{{break}}", '{{template "%s"}}' % STOP, '{{template "w" .}}', "{{if P}}{{continue}}{{end}}", "{{continue}}{{len P}}", ""])
    form = draw.choice(["{{if TEST}}LEAVE{{end}}USED", "{{if TEST}}LEAVE{{end}}USED", "{{if TEST}}no LEAVE{{else}}{{.b}}{{end}}USED", "{{if TEST}}USED{{else}}LEAVE{{end}}USED",
                        "{{with P}}{{.a}}{{else}}LEAVE{{end}}USED", "{{if TEST}}LEAVE{{else}}LEAVE{{end}}USED", "{{range P}}LEAVE{{end}}USED",
                        "{{$x := P}}{{if not $x}}LEAVE{{end}}{{len $x}}USED", "{{$x := P}}{{if TEST}}{{$x = 1}}LEAVE{{end}}{{len $x}}"])
    line = form.replace("TEST", test).replace("LEAVE", leave).replace("USED", used).replace("P", place).replace("S", start or ".").replace("..", ".")
    if start or "{{continue}}" in line or "{{break}}" in line or draw.random() < 0.6:
        line = "{{range $e := %s}}%s{{end}}" % (drawn_path(draw, scope), line)
    return line


def drawn_found(draw, scope):
    """A variable that a range changes, mostly before it is left, and what may be known of it then."""
    first = draw.choice(["false", "false", '""', '""', "true", "0", '"x"', ".a", "$"])
    value = draw.choice([".", ".", ".a", ".a.b", "true", '"x"', "$.b"])
    leave = draw.choice(["{{break}}", "{{break}}", "{{continue}}", "", "{{if .b}}{{break}}{{end}}", "{{range $.c}}{{$v = .}}{{break}}{{end}}"])
    used = draw.choice(["{{len $v}}", "{{$v.a}}", "{{$v.a.b}}", "{{lt $v 3}}", "{{not $v}}", "{{range $v}}{{end}}", "{{index $v 0}}", '{{printf "%s" $v}}', '{{template "w" $v}}'])
    past = draw.choice(["USED", "{{if $v}}USED{{end}}", "{{if $v}}USED{{end}}", "{{with $v}}{{.a}}USED{{end}}", "{{if not $v}}USED{{end}}", "{{if $v}}{{else}}USED{{end}}"])
    body = draw.choice(["{{if .a}}SET{{end}}", "{{if .a}}SET{{end}}", "{{if eq . nil}}{{else}}SET{{end}}", "{{with .a}}SET{{end}}", "SET", "PAST{{if .b}}SET{{end}}"])
    line = "{{$v := %s}}{{range %s}}%s{{end}}PAST" % (first, drawn_path(draw, scope), body.replace("SET", "{{$v = %s}}%s" % (value, leave)))
    return line.replace("PAST", past).replace("USED", used)


def drawn_by_its_key(draw, scope):
    """A range, and in it what is at its index or key, mostly of what it ranges over."""
    place = draw.choice(["$.a", "$.a", "$.b", "$.a.b", "$r", drawn_path(draw, scope)])
    other = draw.choice([place, place, place, place, "$.a", "$.c", "(slice %s)" % place])
    start = "{{$r := %s}}" % draw.choice(["$.a", "$", ".b"]) if "$r" in (place, other) else ""
    used = draw.choice(["{{len (index P $i)}}", "{{(index P $i).a}}", "{{lt (index P $i) 3}}", '{{printf "%s" (index P $i)}}', "{{range index P $i}}{{end}}", "{{index P $i $i}}",
                        "{{index P $i 0}}", '{{index P $i "a"}}', "{{with index P $i}}{{.a}}{{end}}"])
    change = draw.choice(["", "", "", "{{$i = 1}}", '{{$i = "a"}}', "{{if $e}}{{break}}{{end}}"] + ["{{$r = .}}"] * bool(start))
    form = draw.choice(["{{range $i, $e := P}}USED{{$e}}CHANGE{{end}}", "{{range $i, $e := P}}CHANGE{{$e}}USED{{end}}", "{{range $i, $e := P}}{{if $e}}USED{{end}}{{end}}",
                        "{{range $i, $e := P}}{{range $e}}USED{{end}}{{end}}"])
    return start + form.replace("USED", used.replace("P", other)).replace("CHANGE", change).replace("P", place)


def drawn_own_range(draw, scope):
    """A range, in it what is known of what it ranges over, and past it what is not."""
    place = draw.choice(["$.", "$.", "$r."]) + draw.choice(["a", "b", "c", "a.b"])
    start = "{{$r := %s}}" % draw.choice([scope[0], "$", "$.a"]) if place.startswith("$r") else ""
    used = draw.choice(["{{len P}}", "{{index P 0}}", "{{index P 0}}", "{{len (slice P 1)}}", "{{index P 1}}", '{{printf "%s" (index P 0)}}', "{{range P}}{{index P 0}}{{end}}"])
    change = draw.choice(["", "", "{{break}}"] + ["{{$r = .}}", "{{$r = $.b}}"] * bool(start))
    form = draw.choice(["{{range P}}USED CHANGE{{end}}", "{{range P}}USED CHANGE{{end}}", "{{range $i, $e := P}}CHANGE USED{{end}}", "{{range P}}CHANGE{{end}}USED",
                        "{{range P}}{{else}}USED{{end}}", "{{range $e := P}}{{if $e}}CHANGE{{end}}USED{{end}}"])
    return start + form.replace("USED", used).replace("CHANGE", change).replace("P", place)


def drawn_line(draw, depth, scope):
    """A part of a template, over dot and the variables in scope."""
    path = drawn_path(draw, scope)
    if draw.random() < 0.4:
        return draw.choice([drawn_printf, drawn_index, drawn_part, drawn_part, drawn_comparison, drawn_tagged, drawn_tagged, drawn_leaving, drawn_leaving, drawn_own_range, drawn_found, drawn_by_its_key])(draw, scope)
    kind = draw.randrange(10) if depth else 0
    inner = "".join(drawn_line(draw, depth - 1, scope) for _ in range(draw.randrange(1, 3))) if depth else ""
    if kind == 0:
        return draw.choice(["{{%s}}", "{{print %s}}", "{{%s | html}}", "{{not %s}}", "{{len %s}}", "{{lt %s 3}}", "{{eq %s 1}}", '{{index %s "a"}}',
                            '{{index (index %s "a") "b"}}', '{{or %s "none"}}', "{{and %s 1}}"]) % path
    if kind in (1, 2):
        return "{{if %s}}%s%s" % (path, inner, draw.choice(["{{end}}", "{{else}}none{{end}}"]))
    if kind in (3, 4):
        return "{{with %s}}%s{{end}}" % (path, inner)
    if kind == 5:
        return "{{with $x := %s}}%s{{end}}" % (path, drawn_line(draw, depth - 1, ["$x", "."]))
    if kind == 6:
        return "{{range $i, $e := %s}}{{$i}}%s{{else}}none{{end}}" % (path, drawn_line(draw, depth - 1, ["$e", "."]))
    if kind == 7:
        return "{{range %s}}%s{{end}}" % (path, inner)
    if kind == 9:
        return "{{$x := %s}}{{if %s}}%s{{end}}" % (path, draw.choice([path, "$x", "$.a"]), drawn_line(draw, depth - 1, draw.choice([["$x", "."], ["$", "$x"], [".", "$x"]])))
    return '{{template "w" %s}}' % path


def drawn_template(draw):
    """Lines, each of which may be refused by itself."""
    return [drawn_line(draw, 2, ["."]) for _ in range(draw.randrange(2, 6))]
