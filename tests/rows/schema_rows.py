"""Rows of tmpl-check over a JSON Schema, worked out by hand: the schema, the template, more words, and what is said; nothing where it is accepted."""

import json

OBJECT = {"type": "object", "additionalProperties": False}


def hands_on(count):
    """This many variables, of which each takes the value of the one before it in each turn, and the first the item."""
    before = "".join("{{$v%d := 1}}" % at for at in range(count))
    turn = "".join("{{$v%d = $v%d}}" % (at, at - 1) for at in reversed(range(1, count)))
    return before + "{{range .x}}" + turn + "{{$v0 = .}}{{end}}{{print $v%d}}" % (count - 1)


def of(properties, required=None, **more):
    """A schema of maps with these properties, of which all are required where it is not said which."""
    return {**OBJECT, "properties": properties, "required": list(properties) if required is None else required, **more}


def few(place, func, count, where=None):
    """What is said of a list of fewer items than a function wants of it, and where in the schema that is let through, if that is said."""
    guard = '"if" or "with"' if count == 1 else f'"if ge (len LIST) {count}"'
    why = f"{where}; " if where else ""
    return f'{place}: error: may fail: "{func}" may get a list of too few items: {why}guard it by {guard}, or write "minItems": {count}'


def low(count, line=1):
    """That a schema tells of fewer items than this."""
    return f'"minItems" at s:{line} is below {count}'


def near(name, keyword):
    """That a keyword is not known, and is near another."""
    return f': the keyword "{name}" is not known: write "{keyword}"'


NO_LEAST = 'no "minItems" at s:%d'
TEXT, WHOLE, ITEMS = {"type": "string"}, {"type": "integer"}, {"type": "array", "items": {"type": "string"}}
NO_DRAFT = '/$schema: the drafts that are read are 2020-12, 2019-09, draft-07, draft-06 and draft-04, and not "%s"'
NODE = {"$defs": {"node": of({"name": TEXT, "kids": {"type": "array", "items": {"$ref": "#/$defs/node"}}})}}
DEFAULT = ["--missingkey", "default"]
MAYBE = {**of({"b": TEXT}), "type": ["object", "null"]}

DRAFT_04, DRAFT_06, DRAFT_07 = ({"$schema": f"http://json-schema.org/draft-0{number}/schema#"} for number in (4, 6, 7))
DRAFT_2019 = {"$schema": "https://json-schema.org/draft/2019-09/schema"}

# alternatives that a string tells apart
TCP, UDP, UNIX = of({"kind": {"const": "tcp"}, "port": WHOLE}), of({"kind": {"const": "udp"}, "port": WHOLE}), of({"kind": {"const": "unix"}, "path": TEXT})
NET, PIPE = of({"kind": {"enum": ["tcp", "udp"]}, "port": WHOLE}), of({"kind": {"enum": ["pipe", "fifo"]}, "name": TEXT})
UNION = {"oneOf": [TCP, UNIX]}
# .. an integer, and a boolean
FIRST, SECOND = of({"version": {"const": 1}, "port": WHOLE}), of({"version": {"const": 2}, "path": TEXT})
VERSIONS = {"oneOf": [FIRST, SECOND]}
SWITCH = {"oneOf": [of({"on": {"const": True}, "cert": TEXT}), of({"on": {"const": False}})]}
# maps that may have more members
OPEN = {"additionalProperties": True}
OPEN_TCP, OPEN_UNIX = {**TCP, **OPEN}, {**UNIX, **OPEN}
# what is told more of a map
MORE = {"type": "object", "required": ["b"], "properties": {"b": TEXT}}
MAYBES = of({"xs": {"type": "array", "items": of({"a": MAYBE})}, "m": MAYBE})

# a title, a schema, a template, more words, and what is said of the template t: a line without its beginning
ACCEPTED = [
    ("required text", of({"a": TEXT}), "{{.a}}", []),
    ("number is whole", of({"a": {"type": "number"}}), "{{lt .a 3}}", []),
    ("variables that settle in 12 rounds", of({"x": ITEMS}), hands_on(11), []),
    ("list", of({"a": ITEMS}), "{{range .a}}{{len .}}{{end}}", []),
    ("optional by default", of({"a": of({"b": TEXT})}, []), "{{with .a}}{{.b}}{{end}}", DEFAULT),
    ("null is empty", of({"a": {"type": ["object", "null"], "required": ["b"]}}), "{{with .a}}{{.b}}{{end}}", []),
    ("recursive definition", {"$ref": "#/$defs/node", **NODE}, '{{define "w"}}{{.name}}{{range .kids}}{{template "w" .}}{{end}}{{end}}{{template "w" .}}', []),
    ("definition of the whole", of({"a": TEXT, "b": {"type": "array", "items": {"$ref": "#"}}}), "{{range .b}}{{.a}}{{range .b}}{{.a}}{{end}}{{end}}", []),
    ("alternatives", of({"a": {"anyOf": [of({"b": TEXT}), of({"b": WHOLE})]}}), "{{.a.b}}", []),
    ("one of them", of({"a": {"oneOf": [TEXT, {"type": "null"}]}}), "{{.a}}", []),
    ("type beside alternatives", of({"a": {"type": "object", "anyOf": [of({"b": TEXT}), TEXT]}}), "{{.a.b}}", []),
    ("constants", of({"a": {"const": "x"}, "b": {"enum": [1, 2]}}), '{{eq .a "y"}}{{lt .b 3}}', []),
    ("type beside constants", of({"a": {"type": "integer", "enum": [1, "x"]}}), "{{lt .a 3}}", []),
    ("alternatives beside properties only narrow", of({"a": TEXT, "b": TEXT}, ["a"], anyOf=[{"required": ["b"]}]), "{{.a}}", []),
    ("required in each alternative beside properties", of({"a": TEXT}, [], anyOf=[{"required": ["a"]}, {"required": ["b", "a"]}]), "{{len .a}}", []),
    ("a tag beside the alternatives that it tells apart", of({"kind": TEXT}, oneOf=[OPEN_TCP, OPEN_UNIX], **OPEN), '{{if eq .kind "tcp"}}{{lt .port 3}}{{else}}{{len .path}}{{end}}', []),
    ("references as alternatives beside properties", {"$defs": {"t": OPEN_TCP, "u": OPEN_UNIX}, **of({"kind": TEXT}, oneOf=[{"$ref": "#/$defs/t"}, {"$ref": "#/$defs/u"}], **OPEN)},
     '{{if eq .kind "tcp"}}{{lt .port 3}}{{else}}{{len .path}}{{end}}', []),
    ("alternatives beside properties of items", of({"us": {"type": "array", "items": of({"kind": TEXT, "n": WHOLE}, oneOf=[OPEN_TCP, OPEN_UNIX], **OPEN)}}),
     '{{range .us}}{{lt .n 3}}{{if eq .kind "tcp"}}{{lt .port 3}}{{end}}{{end}}', []),
    ("alternatives beside properties and parts", of({"a": {}}, anyOf=[{"properties": {"a": TEXT}}, {"properties": {"a": ITEMS}}], allOf=[MORE], **OPEN), "{{len .a}}{{len .b}}", []),
    ("required without a property", {"type": "object", "required": ["a"], "additionalProperties": TEXT}, "{{len .a}}", []),
    ("no value fits", of({"a": False}), "{{.a.b.c}}", []),
    ("escapes of a pointer", of({"a": {"$ref": "#/$defs/x~1y"}, "b": {"$ref": "#/$defs/p%25q"}, "c": {"$ref": "#/$defs/u~0v"}},
                                **{"$defs": {"x/y": of({"k": TEXT}), "p%q": of({"l": TEXT}), "u~v": of({"m": TEXT})}}), "{{.a.k}}{{.b.l}}{{.c.m}}", []),
    ("pointer to a property", of({"a": of({"k": TEXT}), "b": {"$ref": "#/properties/a"}}), "{{.b.k}}", []),
    ("draft-04", of({"a": TEXT, "n": {"type": "number", "minimum": 1, "exclusiveMinimum": True}}, id="http://example.org/x", **DRAFT_04), "{{len .a}}{{lt .n 3}}", []),
    ("draft-06", of({"a": {"const": "x"}}, **{"$id": "x"}, **DRAFT_06), "{{len .a}}", []),
    ("draft-07", {"$ref": "#/definitions/a", "title": "t", "definitions": {"a": of({"a": TEXT, "n": {"exclusiveMinimum": 1}})}, **DRAFT_07}, "{{len .a}}", []),
    ("draft 2019-09", {**of({"a": {"$ref": "#/$defs/a", "maxLength": 3}}), "$defs": {"a": TEXT}, "dependentRequired": {}, **DRAFT_2019}, "{{len .a}}", []),
    ("a draft without an empty fragment", of({"a": TEXT}, **{"$schema": "http://json-schema.org/draft-07/schema"}), "{{len .a}}", []),
    ("definitions below the top", of({"a": {"$ref": "#/properties/b/$defs/x"}, "b": {"type": "integer", "$defs": {"x": TEXT}, "definitions": {"y": True}}}), "{{len .a}}", []),
    ("definitions of earlier drafts", of({"a": {"$ref": "#/definitions/x"}}, definitions={"x": TEXT}), "{{len .a}}", []),
    ("a name", of({"a": {"$ref": "#x"}}, **{"$defs": {"d": {"$anchor": "x", "type": "string"}}}), "{{len .a}}", []),
    ("a dynamic name", of({"a": {"$ref": "#x"}}, **{"$defs": {"c": {}, "d": {"$dynamicAnchor": "x", "type": "string"}}}), "{{len .a}}", []),
    ("a name of draft-07", of({"a": {"$ref": "#x"}}, definitions={"d": {"$id": "#x", "type": "string"}}, **DRAFT_07), "{{len .a}}", []),
    ("a name of draft-04", of({"a": {"$ref": "#x"}}, definitions={"d": {"id": "#x", "type": "string"}}, **DRAFT_04), "{{len .a}}", []),
    ("a name that refers to itself", {"$ref": "#x", "$defs": {"d": {"$anchor": "x", **of({"a": TEXT, "next": {"anyOf": [{"$ref": "#x"}, {"type": "null"}]}})}}},
     '{{define "w"}}{{len .a}}{{with .next}}{{template "w" .}}{{end}}{{end}}{{template "w" .}}', []),
    ("notes", {"$id": "urn:x", "$comment": "c", "title": "t", "description": "d", "default": {"x": 1.5}, "examples": [1.5], "deprecated": False, "readOnly": True,
               "writeOnly": False, "$schema": "https://json-schema.org/draft/2020-12/schema", **of({"a": TEXT})}, "{{.a}}", []),
    ("what only narrows", of({"a": {"type": "string", "pattern": "^x", "format": "email", "minLength": 1, "maxLength": 9}, "b": {"type": "number", "minimum": 0,
                              "maximum": 9.5, "exclusiveMinimum": -1, "exclusiveMaximum": 10, "multipleOf": 0.5}, "c": {**ITEMS, "minItems": 1, "maxItems": 3,
                              "uniqueItems": True}}, minProperties=1, maxProperties=5, dependentRequired={"a": ["b"]}), "{{.a}}{{lt .b 1}}", []),
    ("a stop", of({"a": {"type": "boolean"}}), '{{if .a}}{{template "stop"}}{{end}}', ["--stop", "stop"]),
    ("another name", of({"a": TEXT}), '{{define "u"}}{{.a}}{{end}}{{.x}}', ["--name", "u"]),
    ("any value", {}, "{{print .}}", []),
    ("each value", True, "{{print .}}", []),
    ("index", of({"a": TEXT}, []), '{{index . "a"}}{{with index . "a"}}{{.}}{{end}}{{or (index . "a") "none"}}', []),
    ("index into a map of others", of({"a": {"type": "object", "additionalProperties": WHOLE}}), '{{print (index .a "b")}}', []),
    ("index by several keys", of({"a": of({"b": of({"c": ITEMS})})}), '{{range index . "a" "b" "c"}}{{len .}}{{end}}{{range index .a "b" "c"}}{{end}}', []),
    ("the last key may be missing", of({"a": of({"b": TEXT}, [])}), '{{with index . "a" "b"}}{{len .}}{{end}}', []),
    ("index by a key of the data", of({"a": {"type": "object", "additionalProperties": WHOLE}, "k": TEXT}), "{{print (index .a .k)}}{{.k | index .a}}", []),
    ("index by the key of a range", of({"a": {"type": "object", "additionalProperties": ITEMS}}), "{{range $k, $e := .a}}{{range index $.a $k}}{{len .}}{{end}}{{end}}", []),
    ("index without keys", of({"a": TEXT}), "{{len (index .a)}}", []),
    ("index tells that a field is there", of({"a": of({"b": TEXT})}, []), '{{if index . "a"}}{{.a.b}}{{end}}{{if not (index . "a")}}{{else}}{{.a.b}}{{end}}', []),
    ("index of a variable tells it", of({"a": of({"b": TEXT})}, []), '{{$x := .}}{{if index $x "a"}}{{$x.a.b}}{{end}}', []),
    ("index of a field tells it", of({"c": of({"a": TEXT}, [])}), '{{if index .c "a"}}{{len .c.a}}{{len (index .c "a")}}{{len (index . "c" "a")}}{{end}}', []),
    ("index by several keys tells it", of({"a": of({"b": of({"c": TEXT})}, [])}), '{{if index . "a" "b"}}{{.a.b.c}}{{index .a "b" "c"}}{{end}}{{with index . "a" "b"}}{{.c}}{{$.a.b.c}}{{end}}', []),
    ("index of a chain of a variable tells it", of({"a": of({"b": of({"c": of({"d": TEXT})}, [])})}), '{{$x := .a}}{{if index $x.b "c"}}{{$x.b.c.d}}{{.a.b.c.d}}{{end}}', []),
    ("index of an item of a variable tells it", of({"l": {"type": "array", "items": of({"a": of({"b": TEXT}, [])})}}), '{{range $e := .l}}{{if index $e.a "b"}}{{len $e.a.b}}{{end}}{{end}}', []),
    ("the length of an entry of a field", of({"a": of({"l": ITEMS})}), '{{if gt (len (index .a "l")) 1}}{{index .a.l 1}}{{end}}', []),
    ("a string before its tag", of({"u": UNION}), '{{if eq "tcp" .u.kind}}{{.u.port}}{{else}}{{.u.path}}{{end}}{{with .u}}{{if ne "tcp" .kind}}{{.path}}{{end}}{{end}}', []),
    ("a union by an integer", of({"u": VERSIONS}), '{{if eq .u.version 1}}{{lt .u.port 3}}{{else}}{{len .u.path}}{{end}}{{if ne .u.version 1}}{{len .u.path}}{{else}}{{.u.port}}{{end}}', []),
    ("several integers", of({"u": {"oneOf": [of({"version": {"enum": [1, 2]}, "port": WHOLE}), of({"version": {"const": 3}, "path": TEXT})]}}),
     '{{if eq .u.version 1 2}}{{.u.port}}{{else}}{{.u.path}}{{end}}{{if eq .u.version 3}}{{.u.path}}{{end}}', []),
    ("a union by a boolean", of({"u": SWITCH}), "{{if eq .u.on true}}{{len .u.cert}}{{end}}{{if ne .u.on false}}{{len .u.cert}}{{end}}{{if eq .u.on false}}{{else}}{{.u.cert}}{{end}}", []),
    ("a union by a boolean that is true", of({"u": SWITCH}), "{{if .u.on}}{{len .u.cert}}{{end}}{{with .u}}{{if .on}}{{.cert}}{{end}}{{end}}{{if not .u.on}}{{else}}{{.u.cert}}{{end}}", []),
    ("a union by a number that is not 0", of({"u": {"oneOf": [of({"n": {"const": 0}}), of({"n": {"const": 7}, "path": TEXT})]}}), "{{if .u.n}}{{len .u.path}}{{end}}", []),
    ("a union by a string that is not empty", of({"u": {"oneOf": [of({"n": {"const": ""}}), of({"n": {"const": "x"}, "path": TEXT})]}}), "{{if .u.n}}{{len .u.path}}{{end}}", []),
    ("constants that are integers", of({"n": {"enum": [2, 3]}, "l": {"type": "array", "items": {"$ref": "#/$defs/n"}}}, **{"$defs": {"n": {"enum": [2, 3, 5]}}}),
     "{{range .n}}{{end}}{{range $i := .n}}{{lt $i 3}}{{end}}{{range .l}}{{lt . 3}}{{range .}}{{lt . 3}}{{end}}{{end}}", []),
    ("constants that are booleans", of({"b": {"const": True}, "l": {"type": "array", "items": {"enum": [True, False]}}}), "{{eq .b true}}{{range .l}}{{eq . false}}{{if .}}{{.}}{{end}}{{end}}", []),
    ("what a tag of a variable is not", of({"us": {"type": "array", "items": UNION}}), '{{range $u := .us}}{{if eq $u.kind "tcp"}}{{$u.port}}{{else}}{{$u.path}}{{end}}{{if ne $u.kind "tcp"}}{{$u.path}}{{else}}{{$u.port}}{{end}}{{end}}', []),
    ("tags of a variable one after the other", of({"us": {"type": "array", "items": {"oneOf": [TCP, UNIX, PIPE]}}}),
     '{{range $u := .us}}{{if eq $u.kind "tcp"}}{{$u.port}}{{else if eq $u.kind "unix"}}{{$u.path}}{{else}}{{$u.name}}{{end}}{{end}}', []),
    ("a tag of the data in a range", of({"u": UNION, "l": ITEMS}), '{{range .l}}{{if eq $.u.kind "tcp"}}{{$.u.port}}{{else}}{{$.u.path}}{{end}}{{end}}', []),
    ("a tag of a variable past a continue", of({"us": {"type": "array", "items": UNION}}), '{{range $u := .us}}{{if eq $u.kind "tcp"}}{{continue}}{{end}}{{len $u.path}}{{end}}', []),
    ("past a continue", MAYBES, "{{range .xs}}{{if not .a}}no {{continue}}{{end}}{{.a.b}}{{end}}", []),
    ("past a break", MAYBES, "{{range .xs}}{{if eq .a nil}}{{break}}{{end}}{{.a.b}}{{end}}", []),
    ("past a stop", of({"a": MAYBE}), '{{if not .a}}{{template "stop: no a"}}{{end}}{{.a.b}}{{$.a.b}}', []),
    ("past a stop that is allowed", of({"a": MAYBE}), '{{if not .a}}{{template "none"}}{{end}}{{.a.b}}', ["--stop", "none"]),
    ("past an other part that ends", of({"a": MAYBE}), '{{if .a}}{{.a.b}}{{else}}{{template "stop: no a"}}{{end}}{{.a.b}}', []),
    ("past a with whose other part ends", MAYBES, "{{range .xs}}{{with .a}}{{.b}}{{else}}{{continue}}{{end}}{{.a.b}}{{end}}", []),
    ("a variable past a continue", MAYBES, "{{range $x := .xs}}{{if not $x.a}}{{continue}}{{end}}{{$x.a.b}}{{end}}", []),
    ("what only the part that leaves assigns", MAYBES, '{{range .xs}}{{$x := 1}}{{if not .a}}{{$x = "no"}}{{continue}}{{end}}{{lt $x 2}}{{end}}', []),
    ("an item by its index", of({"l": {"type": "array", "items": of({"name": TEXT})}}), "{{range $i, $e := .l}}{{(index $.l $i).name}}{{$e.name}}{{end}}", []),
    ("an entry by its key", of({"m": {"type": "object", "additionalProperties": of({"name": TEXT})}}), "{{range $k, $v := .m}}{{(index $.m $k).name}}{{$v.name}}{{end}}", []),
    ("a field by its key", of({"m": of({"a": TEXT, "b": ITEMS})}), "{{range $k, $v := .m}}{{len (index $.m $k)}}{{$v}}{{end}}", []),
    ("an item by its index, by other names", of({"a": of({"l": {"type": "array", "items": of({"name": TEXT})}})}),
     "{{$l := .a.l}}{{with .a}}{{range $i, $e := .l}}{{(index $l $i).name}}{{if $e.name}}{{len (index $.a.l $i).name}}{{end}}{{end}}{{end}}", []),
    ("a value before a break, of another kind", of({"x": ITEMS}), "{{$x := 1}}{{range .x}}{{$x = .}}{{break}}{{end}}{{print $x}}", []),
    ("a value before a break, where it is found", of({"us": {"type": "array", "items": of({"on": {"type": "boolean"}, "name": TEXT})}}),
     "{{$u := false}}{{range .us}}{{if .on}}{{$u = .}}{{break}}{{end}}{{end}}{{if $u}}{{$u.name}}{{else}}{{$u}}{{end}}", []),
    ("a value after none", of({"ls": {"type": "array", "items": of({"l": ITEMS})}}), '{{$l := ""}}{{range .ls}}{{$l = .}}{{end}}{{with $l}}{{range .l}}{{.}}{{end}}{{end}}', []),
    ("a value before a continue", of({"x": ITEMS}), '{{$x := ""}}{{range .x}}{{if $x}}{{len $x}}{{end}}{{if .}}{{$x = .}}{{continue}}{{end}}{{end}}{{len $x}}', []),
    ("a value before a break of a range inside", of({"x": ITEMS, "ns": {"type": "array", "items": WHOLE}}),
     "{{$n := false}}{{range .x}}{{range $.ns}}{{$n = .}}{{break}}{{end}}{{end}}{{if $n}}{{lt $n 3}}{{end}}", []),
    ("a boolean that is changed before a break", of({"x": ITEMS}), '{{$is_found := false}}{{range .x}}{{if eq . "x"}}{{$is_found = true}}{{break}}{{end}}{{end}}{{not $is_found}}', []),
    ("a tag past a continue", of({"us": {"type": "array", "items": UNION}}), '{{range .us}}{{if ne .kind "tcp"}}{{continue}}{{end}}{{lt .port 3}}{{end}}', []),
    ("items past a stop", of({"a": ITEMS}), '{{if lt (len .a) 2}}{{template "stop: two"}}{{end}}{{index .a 1}}', []),
    ("a call past a stop", of({"a": MAYBE}), '{{define "w"}}{{.b}}{{end}}{{if not .a}}{{template "stop: no a"}}{{end}}{{template "w" .a}}', []),
    ("past a stop in a range in a template", of({"a": MAYBE, "l": ITEMS}), '{{define "w"}}{{if not .a}}{{template "stop: no a"}}{{end}}{{range .l}}{{$.a.b}}{{end}}{{end}}{{template "w" .}}', []),
    ("a union by its tag", of({"u": UNION}), '{{if eq .u.kind "tcp"}}{{lt .u.port 3}}{{else}}{{len .u.path}}{{end}}{{if eq .u.kind "unix"}}{{len .u.path}}{{end}}', []),
    ("a union by what its tag is not", of({"u": UNION}), '{{if ne .u.kind "tcp"}}{{len .u.path}}{{else}}{{lt .u.port 3}}{{end}}{{if not (eq .u.kind "tcp")}}{{len .u.path}}{{end}}', []),
    ("the tag of dot", of({"u": UNION}), '{{with .u}}{{if ne .kind "tcp"}}{{len .path}}{{else}}{{lt .port 3}}{{end}}{{end}}', []),
    ("tags one after the other", of({"u": {"oneOf": [TCP, UNIX, PIPE]}}), '{{if eq .u.kind "tcp"}}{{.u.port}}{{else if eq .u.kind "unix"}}{{.u.path}}{{else}}{{.u.name}}{{end}}', []),
    ("a union by the fields that are there", of({"u": {"anyOf": [of({"port": WHOLE}), of({"path": TEXT})]}}),
     '{{if index .u "path"}}{{len .u.path}}{{end}}{{with index .u "port"}}{{lt $.u.port .}}{{end}}', []),
    ("a union by a field of a field", of({"u": {"anyOf": [of({"a": of({"b": TEXT})}), of({"a": of({"c": TEXT})})]}}),
     '{{if index .u "a" "c"}}{{len .u.a.c}}{{end}}', []),
    ("several tags", of({"u": {"anyOf": [NET, UNIX]}}), '{{if eq .u.kind "tcp" "udp"}}{{.u.port}}{{else}}{{.u.path}}{{end}}{{if eq .u.kind "unix" "x"}}{{.u.path}}{{else}}{{.u.port}}{{end}}', []),
    ("several tags one by one", of({"u": {"anyOf": [NET, UNIX]}}), '{{if eq .u.kind "tcp"}}{{.u.port}}{{else if eq .u.kind "udp"}}{{.u.port}}{{else}}{{.u.path}}{{end}}', []),
    ("several tags in an and", of({"u": {"anyOf": [NET, UNIX]}}), '{{if and (ne .u.kind "tcp") (ne .u.kind "udp")}}{{.u.path}}{{end}}{{if or (eq .u.kind "tcp") (eq .u.kind "udp")}}{{else}}{{.u.path}}{{end}}', []),
    ("unions in a list", of({"us": {"type": "array", "items": {"anyOf": [TCP, UDP, UNIX]}}}), '{{range .us}}{{if eq .kind "tcp" "udp"}}{{lt .port 3}}{{else}}{{len .path}}{{end}}{{end}}', []),
    ("a union of definitions", of({"u": {"oneOf": [{"$ref": "#/$defs/t"}, {"$ref": "#/$defs/u"}]}}, **{"$defs": {"t": TCP, "u": UNIX}}),
     '{{if eq .u.kind "tcp"}}{{.u.port}}{{else}}{{.u.path}}{{end}}', []),
    ("the whole is a union", UNION, '{{if eq .kind "tcp"}}{{.port}}{{$.port}}{{else}}{{.path}}{{end}}', []),
    ("the tag of a variable", of({"u": UNION}), '{{$x := .u}}{{if eq $x.kind "tcp"}}{{$x.port}}{{.u.port}}{{$.u.port}}{{end}}{{if eq .u.kind "tcp"}}{{$x.port}}{{end}}', []),
    ("the tag of a variable of a range", of({"us": {"type": "array", "items": UNION}}), '{{range $i, $u := .us}}{{if eq $u.kind "tcp"}}{{$u.port}}{{end}}{{end}}', []),
    ("a tag before what it guards", of({"u": UNION}), '{{if and (eq .u.kind "tcp") (lt .u.port 3)}}{{end}}{{if or (eq .u.kind "unix") (lt .u.port 3)}}{{end}}', []),
    ("a tag that may be absent", of({"u": {"oneOf": [{**TCP, "required": ["port"]}, UNIX]}}), '{{if eq (index .u "kind") "tcp"}}{{.u.port}}{{end}}', []),
    ("a tag in a union in a union", of({"v": {"oneOf": [of({"on": {"const": "yes"}, "u": UNION}), of({"on": {"const": "no"}})]}}),
     '{{if eq .v.on "yes"}}{{if eq .v.u.kind "tcp"}}{{.v.u.port}}{{else}}{{.v.u.path}}{{end}}{{end}}', []),
    ("many unions", of({f"u{number}": UNION for number in range(30)}), "".join('{{if eq .u%d.kind "tcp"}}{{.u%d.port}}{{else}}{{.u%d.path}}{{end}}' % (number, number, number) for number in range(30)), []),
    ("constants beside other kinds", of({"a": {"enum": ["x", "y", 1, None]}, "b": {"enum": ["x"], "type": ["string", "null"]}}), '{{print .a}}{{len .b}}{{slice .b}}', []),
    ("index in an and tells it", of({"a": of({"b": TEXT})}, []), '{{if and (index . "a") (index .a "b")}}{{len .a.b}}{{end}}', []),
    ("what is not nil is there", of({"a": TEXT}, []), '{{if ne (index . "a") nil}}{{len .a}}{{end}}{{if eq (index . "a") nil}}{{else}}{{len .a}}{{end}}', []),
    ("what equals a constant is not null", of({"a": {"type": ["string", "null"]}}), '{{if eq .a "x"}}{{len .a}}{{end}}{{if ne .a ""}}{{else}}{{len .a}}{{end}}', []),
    ("what equals 0 is a number", of({"a": {"type": ["integer", "null"]}}), "{{if eq .a 0}}{{lt .a 1}}{{end}}", []),
    ("the first item of a list that is not empty", of({"a": ITEMS}), "{{with .a}}{{len (index . 0)}}{{end}}{{if .a}}{{len (index .a 0)}}{{end}}", []),
    ("a field of the first item", of({"a": {"type": "array", "items": of({"name": TEXT})}}), "{{if .a}}{{(index .a 0).name}}{{end}}", []),
    ("an item of a list of variable", of({"a": ITEMS}), "{{$l := .a}}{{if and $l true}}{{index $l 0}}{{end}}{{if not $l}}{{else}}{{index $l 0}}{{end}}{{with $m := .a}}{{index $m 0}}{{end}}", []),
    ("as many items as the schema says", of({"a": {**ITEMS, "minItems": 2}}), "{{index .a 0}}{{index .a 1}}{{range .a}}{{end}}{{len .a}}", []),
    ("items of a list that may be null", of({"a": {**ITEMS, "type": ["array", "null"]}}, []), '{{with index . "a"}}{{index . 0}}{{end}}{{if index . "a"}}{{index .a 0}}{{end}}', []),
    ("index through lists and maps", of({"a": {"type": "array", "minItems": 1, "items": of({"b": {**ITEMS, "minItems": 2}})}}), '{{index .a 0 "b" 1}}{{(index .a 0).b}}{{index (index .a 0 "b") 1}}', []),
    ("lists in lists", of({"a": {"type": "array", "minItems": 1, "items": {**ITEMS, "minItems": 3}}}), "{{index .a 0 2}}", []),
    ("lists of two lengths", of({"a": {"anyOf": [{**ITEMS, "minItems": 1}, {**ITEMS, "minItems": 3}]}}), "{{index .a 0}}", []),
    ("a list handed to a template", of({"a": {**ITEMS, "minItems": 2}, "b": {**ITEMS, "minItems": 1}}), '{{define "w"}}{{index . 0}}{{end}}{{template "w" .a}}{{template "w" .b}}', []),
    ("a part of a list", of({"a": {**ITEMS, "minItems": 3}}), "{{index (slice .a 1) 1}}{{index (slice .a 1 3) 1}}{{range slice .a 3}}{{end}}{{len (slice .a 2 2)}}", []),
    ("the rest of a list that is not empty", of({"a": ITEMS}), "{{if .a}}{{range slice .a 1}}{{len .}}{{end}}{{end}}{{range slice .a 0}}{{end}}", []),
    ("a list in its own range", of({"l": ITEMS}), "{{range $i, $e := .l}}{{$e}}{{if lt $i (len (slice $.l 1))}}, {{end}}{{index $.l 0}}{{end}}", []),
    ("a list that need not be there in its own range", of({"l": ITEMS}, []), "{{range .l}}{{len $.l}}{{index $.l 0}}{{end}}", DEFAULT),
    ("a map that need not be there in its own range", of({"m": {"type": "object", "additionalProperties": TEXT}}, []), "{{range $k, $v := .m}}{{len $.m}}{{end}}", DEFAULT),
    ("a list of a variable in its own range", of({"l": ITEMS}), "{{$l := .l}}{{range $l}}{{index $l 0}}{{index $.l 0}}{{range $.l}}{{index $l 0}}{{end}}{{end}}", []),
    ("a list in its own range from turn to turn", of({"l": ITEMS, "t": TEXT}), "{{$x := .l}}{{range .l}}{{index $.l 0}}{{$x = $.t}}{{end}}", []),
    ("past a range whose other part ends", of({"l": ITEMS}), '{{range .l}}{{else}}{{template "stop: none"}}{{end}}{{index .l 0}}{{index $.l 0}}', []),
    ("past a range that breaks or ends", of({"l": ITEMS}), '{{range .l}}{{break}}{{else}}{{template "stop: none"}}{{end}}{{index .l 0}}', []),
    ("past a range that continues another", of({"ls": {"type": "array", "items": ITEMS}}), "{{range $l := .ls}}{{range .}}{{else}}{{continue}}{{end}}{{index . 0}}{{end}}", []),
    ("a whole list or text as its part", of({"a": ITEMS, "b": TEXT, "c": {"type": ["array", "string"]}}), "{{len (slice .a)}}{{len (slice .b)}}{{len (slice .c 0)}}", []),
    ("no items at least", of({"a": {**ITEMS, "minItems": 0}}), "{{range .a}}{{len .}}{{end}}", []),
    ("more items than a number", of({"a": ITEMS}), "{{if gt (len .a) 1}}{{index .a 1}}{{end}}{{if lt 1 (len .a)}}{{index .a 1}}{{end}}", []),
    ("as many items as a number", of({"a": ITEMS}), "{{if ge (len .a) 2}}{{index .a 1}}{{end}}{{if le 2 (len .a)}}{{index .a 1}}{{end}}", []),
    ("just as many items", of({"a": ITEMS}), "{{if eq (len .a) 2}}{{index .a 1}}{{end}}{{if eq 2 (len .a)}}{{index .a 1}}{{end}}{{if ne (len .a) 3}}{{else}}{{index .a 2}}{{end}}", []),
    ("some items", of({"a": ITEMS}), "{{if ne (len .a) 0}}{{index .a 0}}{{end}}{{if ne 0 (len .a)}}{{index .a 0}}{{end}}{{if eq (len .a) 0}}{{else}}{{index .a 0}}{{end}}{{if len .a}}{{index .a 0}}{{end}}", []),
    ("no fewer items", of({"a": ITEMS}), "{{if lt (len .a) 2}}{{else}}{{index .a 1}}{{end}}{{if not (lt (len .a) 2)}}{{index .a 1}}{{end}}{{if le (len .a) 2}}{{else}}{{index .a 2}}{{end}}", []),
    ("no fewer items, turned round", of({"a": ITEMS}), "{{if gt 2 (len .a)}}{{else}}{{index .a 1}}{{end}}{{if not (ge 2 (len .a))}}{{index .a 2}}{{end}}", []),
    ("a length that is piped", of({"a": ITEMS}), "{{if len .a | lt 1}}{{index .a 1}}{{end}}{{if len .a | gt 2}}{{else}}{{index .a 1}}{{end}}{{if len .a | eq 3}}{{index .a 2}}{{end}}", []),
    ("the length of a list of a variable", of({"a": of({"b": ITEMS})}), "{{$x := .a}}{{if gt (len $x.b) 1}}{{index $x.b 1}}{{end}}{{with len $x.b}}{{index $x.b 0}}{{end}}", []),
    ("the length of an entry", of({"a": ITEMS}), '{{if gt (len (index . "a")) 1}}{{index .a 1}}{{end}}', []),
    ("lengths in and, or and not", of({"a": ITEMS, "b": ITEMS}), "{{if and (gt (len .a) 1) (ge (len .b) 3)}}{{index .a 1}}{{index .b 2}}{{end}}"
     "{{if or (lt (len .a) 2) (eq (len .b) 0)}}{{else}}{{index .a 1}}{{index .b 0}}{{end}}{{if not (or (not .a) (not (len .b)))}}{{index .a 0}}{{index .b 0}}{{end}}", []),
    ("a length before what it guards", of({"a": ITEMS}), '{{if and (gt (len .a) 1) (index .a 1)}}{{end}}{{or (lt (len .a) 2) (index .a 1)}}', []),
    ("what is not empty in parentheses", of({"a": ITEMS, "b": {"type": ["string", "null"]}}), "{{if (.a)}}{{index .a 0}}{{end}}{{if and (not (eq .b nil)) (not (not .a))}}{{len .b}}{{index .a 0}}{{end}}", []),
    ("a part of a list by its length", of({"a": ITEMS}), "{{if gt (len .a) 2}}{{range slice .a 1 3}}{{len .}}{{end}}{{end}}", []),
    ("the length of a list or a text", of({"a": {"type": ["array", "string"], "items": TEXT}}), "{{if ge (len .a) 2}}{{len .a}}{{end}}", []),
    ("the length of a list among definitions", of({"a": {"$ref": "#/$defs/l"}}, **{"$defs": {"l": ITEMS}}), "{{if ge (len .a) 2}}{{index .a 1}}{{end}}", []),
    ("the larger of two numbers of items", of({"a": {**ITEMS, "minItems": 2}}), "{{if gt (len .a) 0}}{{index .a 1}}{{end}}{{if gt (len .a) 3}}{{index .a 3}}{{end}}", []),
    ("what a variable tells of the path that it is", of({"a": MAYBE}), "{{$x := .a}}{{if $x}}{{.a.b}}{{$.a.b}}{{$x.b}}{{end}}", []),
    ("what a path tells of a variable", of({"a": MAYBE}), "{{$x := .a}}{{if .a}}{{$x.b}}{{end}}{{if $.a}}{{$x.b}}{{.a.b}}{{end}}", []),
    ("what dot tells of the data", of({"a": MAYBE}), "{{if .a}}{{$.a.b}}{{end}}{{with .a}}{{.b}}{{$.a.b}}{{end}}{{with $x := .a}}{{$x.b}}{{$.a.b}}{{end}}", []),
    ("what a variable tells of another", of({"a": of({"b": MAYBE})}), "{{$x := .a}}{{$y := $x.b}}{{$z := .}}{{if $y}}{{$x.b.b}}{{.a.b.b}}{{$z.a.b.b}}{{end}}", []),
    ("what is known of a variable of a list", of({"a": ITEMS}), "{{$x := .a}}{{if gt (len $x) 1}}{{index .a 1}}{{end}}{{if len .a}}{{index $x 0}}{{end}}{{if not $x}}{{else}}{{index $.a 0}}{{end}}", []),
    ("a variable of an entry", of({"a": of({"b": TEXT})}, []), '{{$x := index . "a"}}{{if $x}}{{.a.b}}{{$.a.b}}{{end}}{{if index . "a"}}{{$x.b}}{{end}}', []),
    ("a variable that is assigned a path", of({"a": MAYBE}), "{{$x := 0}}{{$x = .a}}{{if $x}}{{.a.b}}{{end}}", []),
    ("in the body of a with", of({"a": of({"b": MAYBE})}), "{{with .a}}{{if .b}}{{$.a.b.b}}{{end}}{{$y := .b}}{{if $y}}{{.b.b}}{{$.a.b.b}}{{end}}{{end}}", []),
    ("in the body of a range", of({"a": MAYBE, "l": ITEMS}), "{{$x := .a}}{{range .l}}{{if $x}}{{$.a.b}}{{end}}{{if $.a}}{{$x.b}}{{end}}{{end}}{{if $x}}{{.a.b}}{{end}}", []),
    ("a path that is kept by both parts", of({"a": MAYBE, "c": {"type": "boolean"}}), "{{$x := .a}}{{if .c}}{{$y := 1}}{{else}}{{$x = $.a}}{{end}}{{if $x}}{{.a.b}}{{end}}", []),
    ("printf of texts", of({"a": TEXT}), r'{{printf "%s|%q|%x|%X|%v" .a .a .a .a .a}}', []),
    ("printf of numbers", of({"a": WHOLE}), r'{{printf "%d|%o|%b|%x|%X|%c|%v" .a .a .a .a .a .a .a}}', []),
    ("printf of truth values", of({"a": {"type": "boolean"}}), r'{{printf "%t|%v|%-6t|%6v" .a .a .a .a}}', []),
    ("printf with flags and widths", of({"a": WHOLE, "b": TEXT}), r'{{printf "%5d|%-5d|%05d|%+d|% d|%+08x|%5c" .a .a .a .a .a .a .a}}{{printf "%9s|%-9s|%.3s|%8.2s|%-8q|%.s" .b .b .b .b .b .b}}', []),
    ("printf of any value", of({"a": True, "b": ITEMS, "c": {"type": "object"}}), '{{printf "%v %v %v" .a .b .c}}', []),
    ("printf of null", of({"a": {"type": ["null", "string"]}}), '{{printf "%v|%9v" .a .a}}', []),
    ("printf of what may be absent", of({"a": TEXT}, []), '{{printf "%v" .a}}', DEFAULT),
    ("printf of a number or a text", of({"a": {"type": ["integer", "string"]}}), '{{printf "%x %v" .a .a}}', []),
    ("printf of two of two kinds", of({"a": {"type": ["integer", "string"]}, "b": {"type": ["string", "boolean"]}}), '{{printf "%X|%v|%d" .a .b 3}}', []),
    ("printf without arguments", of({}), '{{printf "100%%"}}{{printf ""}}', []),
    ("printf of what is piped", of({"a": TEXT, "b": WHOLE}), '{{.b | printf "%s: %d" .a}}{{.a | printf "%q"}}', []),
    ("what printf gives is a text", of({"a": WHOLE}), '{{len (printf "%d" .a)}}{{lt (printf "%d" .a) "x"}}', []),
    ("pattern properties and no others", {"type": "object", "patternProperties": {"^a": TEXT}, "additionalProperties": False}, "{{range .}}{{len .}}{{end}}", []),
    ("pattern properties and others", {"type": "object", "patternProperties": {"^a": TEXT, "^b": ITEMS}, "additionalProperties": ITEMS}, "{{range .}}{{len .}}{{end}}", []),
    ("required by a pattern", {"type": "object", "required": ["a"], "patternProperties": {"^a": TEXT}, "additionalProperties": False}, "{{len .a}}", []),
    ("a property beside a pattern", of({"a": TEXT}, patternProperties={"^a": {"minLength": 1}, "^b": WHOLE}), "{{len .a}}", []),
    ("allOf of one part", of({"a": {"allOf": [TEXT]}}), "{{len .a}}", []),
    ("the first part of allOf", {"allOf": [of({"a": TEXT}), {"required": ["b"]}]}, "{{len .a}}", []),
    ("allOf by a reference", of({"a": {"title": "t", "allOf": [{"$ref": "#/$defs/x"}]}}, **{"$defs": {"x": of({"b": TEXT})}}), "{{len .a.b}}", []),
    ("the second part of allOf", of({"a": {"allOf": [{}, TEXT]}}), "{{len .a}}", []),
    ("allOf beside properties", of({"a": {"properties": {}, "allOf": [TEXT]}}), "{{len .a}}", []),
    ("a property in a part of allOf", {**of({"a": {}}), "allOf": [{"properties": {"a": TEXT}}]}, "{{len .a}}", []),
    ("required in a part of allOf", {**of({"a": TEXT}, []), "allOf": [{"required": ["a"]}]}, "{{len .a}}", []),
    ("null left out by a part of allOf", {**of({"a": {"type": ["string", "null"]}}), "allOf": [{"properties": {"a": TEXT}}]}, "{{len .a}}", []),
    ("a string that a part of allOf names", of({"u": {"allOf": [UNION, {"properties": {"kind": {"const": "tcp"}}}]}}), "{{if eq .u.kind \"tcp\"}}{{.u.port}}{{end}}", []),
    ("a definition and more", {"allOf": [{"$ref": "#/$defs/x"}, MORE], "$defs": {"x": {"type": "object", "required": ["a"], "properties": {"a": TEXT}}}}, "{{len .a}}{{len .b}}", []),
    ("a definition of a definition and more", {"allOf": [{"$ref": "#/$defs/y"}, MORE], "$defs": {
        "x": {"type": "object", "required": ["a"], "properties": {"a": TEXT}}, "y": {"allOf": [{"$ref": "#/$defs/x"}, {"required": ["c"], "properties": {"c": ITEMS}}]}}},
     "{{len .a}}{{len .b}}{{range .c}}{{len .}}{{end}}", []),
    ("alternatives beside parts", {"oneOf": [{"required": ["a"], "properties": {"a": TEXT}}, {"required": ["a"], "properties": {"a": ITEMS}}], "allOf": [MORE]}, "{{len .a}}{{len .b}}", []),
    ("a list of parts", of({"a": {"allOf": [{"type": "array", "minItems": 2}, {"items": TEXT}]}}), "{{len (index .a 1)}}", []),
    ("other properties of parts", {"allOf": [{"type": "object", "additionalProperties": TEXT}, {"additionalProperties": {"minLength": 1}}]}, "{{range .}}{{len .}}{{end}}", []),
    ("a definition that has itself as a part", {"$ref": "#/$defs/x", "$defs": {"x": {"allOf": [of({"a": TEXT, "x": {"type": ["object", "null"], "allOf": [{"$ref": "#/$defs/x"}]}}), {}]}}},
     "{{len .a}}{{with .x}}{{len .a}}{{with .x}}{{len .a}}{{end}}{{end}}", []),
    ("parts of allOf three references deep", {"allOf": [{"$ref": "#/$defs/a"}, {}], "$defs": {
        "a": {"allOf": [{"$ref": "#/$defs/b"}, {}]}, "b": {"allOf": [{"$ref": "#/$defs/c"}, {}]}, "c": of({"x": TEXT})}},
     "{{len .x}}", []),
    ("a part of allOf inside what is looked up", {"allOf": [{"$ref": "#/$defs/a"}, {}], "$defs": {
        "a": of({"y": {"allOf": [{"$ref": "#/$defs/b"}, {"minLength": 1}]}}), "b": TEXT}}, "{{len .y}}", []),
    ("properties beside a reference", {"$ref": "#/$defs/x", **MORE, "$defs": {"x": {"type": "object", "required": ["a"], "properties": {"a": TEXT}}}}, "{{len .a}}{{len .b}}", []),
    ("required beside a reference", {"$ref": "#/$defs/x", "required": ["a"], "$defs": {"x": {"type": "object", "properties": {"a": TEXT}}}}, "{{len .a}}", []),
    ("type beside allOf", of({"a": {"type": "object", "allOf": [{"anyOf": [of({"b": TEXT}), TEXT]}]}}), "{{len .a.b}}", []),
    ("prefix items", of({"a": {"type": "array", "minItems": 1, "prefixItems": [TEXT], "items": WHOLE}}), "{{range .a}}{{print .}}{{end}}{{index .a 0}}", []),
    ("a list of items", of({"a": {"type": "array", "items": [TEXT], "additionalItems": False}}, **DRAFT_07), "{{range .a}}{{print .}}{{end}}", []),
    ("beside a reference", {"$ref": "#/$defs/x", "type": "object", "$defs": {"x": of({"a": TEXT})}}, "{{len .a}}", []),
    ("a type beside a reference", of({"a": {"$ref": "#/$defs/x", "type": "string"}}, **{"$defs": {"x": {"type": ["string", "null"]}}}), "{{len .a}}", []),
    ("a constant beside a reference", of({"a": {"$ref": "#/$defs/x", "const": "p"}}, **{"$defs": {"x": True}}), "{{len .a}}", []),
    ("constants beside a reference", of({"a": {"$ref": "#/$defs/x", "enum": ["p", "q"]}}, **{"$defs": {"x": {"type": ["string", "integer"]}}}, **DRAFT_2019), "{{len .a}}", []),
    ("a type beside a reference to itself", {"$ref": "#/$defs/node", "$defs": {"node": of({"name": TEXT, "kids": {"type": "array", "items": {"$ref": "#/$defs/node", "type": "object"}}})}},
     '{{define "w"}}{{len .name}}{{range .kids}}{{template "w" .}}{{end}}{{end}}{{template "w" .}}', []),
    ("anyOf beside oneOf", of({"a": {"anyOf": [TEXT, WHOLE], "oneOf": [TEXT, {"type": "null"}]}}), "{{len .a}}", []),
    ("references in anyOf beside oneOf", of({"a": {"anyOf": [{"$ref": "#/$defs/t"}, {"$ref": "#/$defs/w"}], "oneOf": [TEXT, {"type": "null"}]}}, **{"$defs": {"t": TEXT, "w": WHOLE}}),
     "{{len .a}}", []),
    ("references in anyOf beside allOf", of({"a": {"anyOf": [{"$ref": "#/$defs/t"}, {"$ref": "#/$defs/w"}], "allOf": [{"type": ["string", "null"]}]}}, **{"$defs": {"t": TEXT, "w": WHOLE}}),
     "{{len .a}}", []),
    ("minItems beside a reference", of({"a": {"$ref": "#/$defs/l", "minItems": 2}}, **{"$defs": {"l": {**ITEMS, "minItems": 1}}}), "{{len (index .a 1)}}", []),
    ("minItems alone in a part", of({"a": {"allOf": [ITEMS, {"minItems": 1}]}}), "{{len (index .a 0)}}", []),
    ("minItems beside alternatives", of({"a": {"anyOf": [ITEMS, {"type": "array", "items": ITEMS}], "minItems": 1}}), "{{len (index .a 0)}}", []),
    ("anyOf that says less beside oneOf", of({"a": {"anyOf": [{}, {"minLength": 1}], "oneOf": [TEXT, {"type": "array"}]}}), "{{len .a}}", []),
    ("beside a reference to elsewhere", of({"a": {"$ref": "other.json", "type": "string"}}), "{{len .a}}", []),
    ("beside a reference of draft-07", of({"a": {"$ref": "#/definitions/x", "type": "integer"}}, definitions={"x": TEXT}, **DRAFT_07), "{{len .a}}", []),
    ("names below the top that begin with #", of({"a": {"$ref": "#/definitions/x"}}, definitions={"x": {"$id": "#x", "type": "string"}}, **DRAFT_07), "{{len .a}}", []),
    ("id of later drafts", of({"a": {"$ref": "#/definitions/x"}}, definitions={"x": {"id": "x", "type": "string"}}, **DRAFT_07), "{{len .a}}", []),
    ("identifiers where nothing is looked up", of({"a": {"$id": "x", "type": "string"}}), "{{len .a}}", []),
    ("definitions in groups", of({"a": {"$ref": "#/$defs/g/x"}}, **{"$defs": {"g": {"x": TEXT, "type": TEXT, "titel": TEXT}}}), "{{len .a}}", []),
    ("what is left out", of({"a": {"type": "string", "not": {"const": "x"}, "if": {}, "then": {}, "else": False}, "b": {
        **ITEMS, "contains": TEXT, "minContains": 1, "maxContains": 2, "unevaluatedItems": False}}, propertyNames={"maxLength": 3}, dependentSchemas={"a": {"required": ["b"]}},
        dependencies={"a": ["b"]}, unevaluatedProperties=False), "{{len .a}}{{range .b}}{{len .}}{{end}}", []),
    ("a whole number with a point", of({"a": {**ITEMS, "minItems": 2.0, "maxItems": 1e1}}), "{{range .a}}{{len .}}{{end}}", []),
    ("a bound that is a truth value", of({"n": {"type": "integer", "minimum": 1, "exclusiveMinimum": True}}), "{{lt .n 3}}", []),
    ("draft 2019-09 by http", of({"a": TEXT}, **{"$schema": "http://json-schema.org/draft/2019-09/schema#"}), "{{len .a}}", []),
    ("draft 2020-12 by http", of({"a": TEXT}, **{"$schema": "http://json-schema.org/draft/2020-12/schema"}), "{{len .a}}", []),
    ("printf of a recursive definition", {"$ref": "#/$defs/node", **NODE}, '{{printf "%v" .}}{{range .kids}}{{printf "%s%v" .name .}}{{end}}', []),
]

LISTS = """{
  "type": "object",
  "required": ["rows", "names"],
  "properties": {
    "rows": {
      "type": "array",
      "minItems": 1,
      "items": {
        "type": "array",
        "items": {"type": "string"}
      }
    },
    "names": {
      "type": "array",
      "items": {"type": "string"}
    },
    "maybe": {"anyOf": [
      {"type": "null"},
      {"type": "array", "items": {"type": "string"}}
    ]},
    "more": {"$ref": "#/$defs/a%20list"}
  },
  "$defs": {
    "a list": {"type": "array", "items": {"type": "string"},
      "minItems": 3}
  }
}"""
NULL = "1:%d: error: may fail: .b of null, which may come here (s:1) and has no fields"
FIRST = few("1:1", "index", 1, NO_LEAST % 1)
LENGTH = '1:%d: error: may fail: "len" may get what it refuses'
INDEX, PRINTF = (f'1:1: error: may fail: "{name}" may get what it refuses' for name in ("index", "printf"))
REFUSED = [
    ("optional field", of({"a": TEXT}, []), "x\n {{.a}}", [], "2:2: error: may fail: .a may be absent: not in \"required\" of s:1"),
    ("optional field by with", of({"a": TEXT}, []), "{{with .a}}{{.}}{{end}}", [], "1:1: error: may fail: .a may be absent: not in \"required\" of s:1"),
    ("null", of({"a": {"type": ["object", "null"], "required": ["b"]}}), "{{.a.b}}", [], "1:1: error: may fail: .b of null, which may come here (s:1) and has no fields"),
    ("other part of a condition", of({"a": {"type": ["object", "null"], "required": ["b"]}}), "{{if .a}}{{else}}{{.a.b}}{{end}}", DEFAULT, "1:18: error: may fail: .b of null, which may come here (s:1) and has no fields"),
    ("a list past its own range", of({"l": ITEMS}), "{{range .l}}{{end}}{{index .l 0}}", [], few("1:20", "index", 1, NO_LEAST % 1)),
    ("a list in the else part of its range", of({"l": ITEMS}), "{{range .l}}{{else}}{{index .l 0}}{{end}}", [], few("1:21", "index", 1, NO_LEAST % 1)),
    ("another list in a range", of({"l": ITEMS, "m": ITEMS}), "{{range .l}}{{index $.m 0}}{{end}}", [], few("1:13", "index", 1, NO_LEAST % 1)),
    ("two items in the range of a list", of({"l": ITEMS}), "{{range .l}}{{index $.l 1}}{{end}}", [], few("1:13", "index", 2, NO_LEAST % 1)),
    ("another list in the variable of a range", of({"l": ITEMS, "m": ITEMS}), "{{$l := .l}}{{range $l}}{{$l = $.m}}{{index $l 0}}{{end}}", [], few("1:37", "index", 1)),
    ("past a range that breaks", of({"l": ITEMS}), "{{range .l}}{{break}}{{end}}{{index .l 0}}", [], few("1:29", "index", 1, NO_LEAST % 1)),
    ("past a range whose body ends", of({"l": ITEMS}), '{{range .l}}{{template "stop: one"}}{{end}}{{index .l 0}}', [], few("1:44", "index", 1, NO_LEAST % 1)),
    ("past a range whose other part ends but for one", of({"l": ITEMS}), "{{range .l}}{{else}}none{{end}}{{index .l 0}}", [], few("1:32", "index", 1, NO_LEAST % 1)),
    ("else part of a range", of({"a": {"type": "integer"}}), "{{range .a}}{{else}}{{len .a}}{{end}}", [], '1:21: error: may fail: "len" may get what it refuses'),
    ("list means its items", of({"a": ITEMS}), "{{.a.b}}", [], "1:1: error: may fail: .b of a list, which may come here (s:1) and has no fields"),
    ("range over a text", of({"a": TEXT}), "{{range .a}}{{end}}", [], "1:1: error: may fail: a range over a text, which may come here (s:1)"),
    ("order of a text and a number", of({"a": TEXT}), "{{lt .a 3}}", [], '1:1: error: may fail: "lt" may get what it refuses'),
    ("a field that is not listed", of({"a": TEXT}), "{{.b}}", [], "1:1: error: may fail: .b may be absent: not in \"properties\" of s:1"),
    ("no type", of({"a": {"required": ["b"]}}), "{{.a.b}}", [], "1:1: error: may fail: .b of null, which may come here (s:1) and has no fields"),
    ("alternative without the field", of({"a": {"anyOf": [of({"b": TEXT}), of({"c": TEXT})]}}), "{{.a.b}}", [], "1:1: error: may fail: .b may be absent: not in \"properties\" of s:1"),
    ("a template that is not there", of({"a": TEXT}), '{{template "stop"}}', ["--stop", "other"], '1:1: error: may fail: there is no template "stop"'),
    ("what is nil is not there", of({"a": TEXT}, []), '{{if eq (index . "a") nil}}{{.a}}{{end}}', [], "1:28: error: may fail: .a may be absent: not in \"required\" of s:1"),
    ("what is nil is not there by ne", of({"a": TEXT}, []), '{{if ne (index . "a") nil}}{{else}}{{.a}}{{end}}', [], "1:36: error: may fail: .a may be absent: not in \"required\" of s:1"),
    ("what differs from a constant may be null", of({"a": {"type": ["string", "null"]}}), '{{if ne .a "x"}}{{len .a}}{{end}}', [], '1:17: error: may fail: "len" may get what it refuses'),
    ("minItems beside a reference of draft-07", of({"a": {"$ref": "#/definitions/l", "minItems": 1}}, definitions={"l": ITEMS}, **DRAFT_07), "{{index .a 0}}", [], FIRST),
    ("a type beside a reference of draft-07", of({"a": {"$ref": "#/definitions/x", "type": "string"}}, definitions={"x": {"type": ["string", "null"]}}, **DRAFT_07), "{{len .a}}", [], LENGTH % 1),
    ("a type beside a reference that lets more through", of({"a": {"$ref": "#/$defs/x", "type": ["string", "integer"]}}, **{"$defs": {"x": {"type": ["string", "integer", "null"]}}}), "{{len .a}}", [], LENGTH % 1),
    ("what anyOf and oneOf let through", of({"a": {"anyOf": [TEXT, {"type": "null"}], "oneOf": [{"type": "null"}, TEXT, WHOLE]}}), "{{len .a}}", [], LENGTH % 1),
    ("what does not equal a constant may be null", of({"a": {"type": ["string", "null"]}}), '{{if eq .a "x"}}{{else}}{{len .a}}{{end}}', [], '1:25: error: may fail: "len" may get what it refuses'),
    ("index of another key", of({"a": TEXT, "b": TEXT}, []), '{{if index . "a"}}{{.b}}{{end}}', [], "1:19: error: may fail: .b may be absent: not in \"required\" of s:1"),
    ("past a continue of which a run may come past", MAYBES, "{{range .xs}}{{if not .a}}{{if .c}}{{continue}}{{end}}{{end}}{{.a.b}}{{end}}", DEFAULT, NULL % 62),
    ("past a template that is there", of({"a": MAYBE}), '{{define "w"}}{{end}}{{if not .a}}{{template "w"}}{{end}}{{.a.b}}', [], NULL % 58),
    ("past a range that breaks", of({"a": ITEMS}), "{{range .a}}{{break}}{{end}}{{index .a 0}}", [], FIRST.replace("1:1", "1:29")),
    ("past a range in which a turn is left", MAYBES, "{{range .xs}}{{if not .a}}{{continue}}{{end}}{{end}}{{range .xs}}{{.a.b}}{{end}}", [], NULL % 66),
    ("past the part that goes on", MAYBES, "{{range .xs}}{{if .a}}{{continue}}{{end}}{{.a.b}}{{end}}", [], NULL % 42),
    ("a variable that is assigned past a continue", MAYBES, "{{range .xs}}{{$x := .a}}{{if not $x}}{{continue}}{{end}}{{$x = $.m}}{{$x.b}}{{end}}", [],
     "1:70: error: may fail: .b of nothing, which may come here and has no fields"),
    ("the other alternative of a union", of({"u": UNION}), '{{if eq .u.kind "tcp"}}{{.u.path}}{{end}}', [], "1:24: error: may fail: .path may be absent: not in \"properties\" of s:1"),
    ("a union where its tag is not this", of({"u": UNION}), '{{if eq .u.kind "tcp"}}{{else}}{{.u.port}}{{end}}', [], "1:32: error: may fail: .port may be absent: not in \"properties\" of s:1"),
    ("a union where its integer is not this", of({"u": VERSIONS}), '{{if eq .u.version 1}}{{else}}{{.u.port}}{{end}}', [], "1:31: error: may fail: .port may be absent: not in \"properties\" of s:1"),
    ("a union where its boolean is false", of({"u": SWITCH}), '{{if eq .u.on false}}{{.u.cert}}{{end}}', [], "1:22: error: may fail: .cert may be absent: not in \"properties\" of s:1"),
    ("a union where its boolean may be true", of({"u": SWITCH}), '{{if .u.on}}{{else}}{{.u.cert}}{{end}}', [], "1:21: error: may fail: .cert may be absent: not in \"properties\" of s:1"),
    ("an integer that is written as a fraction", of({"u": {"oneOf": [of({"version": {"const": 2.0}, "port": WHOLE}), SECOND]}}), '{{if eq .u.version 2}}{{.u.path}}{{end}}', [],
     "1:23: error: may fail: .path may be absent: not in \"properties\" of s:1"),
    ("a union before its tag is asked", of({"u": UNION}), '{{.u.port}}{{if eq .u.kind "tcp"}}{{end}}', [], "1:1: error: may fail: .port may be absent: not in \"properties\" of s:1"),
    ("one of two alternatives that are left", of({"u": {"oneOf": [TCP, UNIX, PIPE]}}), '{{if eq .u.kind "tcp"}}{{else}}{{.u.path}}{{end}}', [], "1:32: error: may fail: .path may be absent: the schema does not require it"),
    ("a tag that is any string", of({"u": {"oneOf": [TCP, of({"kind": TEXT, "path": TEXT})]}}), '{{if eq .u.kind "tcp"}}{{.u.port}}{{end}}', [], "1:24: error: may fail: .port may be absent: not in \"properties\" of s:1"),
    ("a field that is empty is not one that is absent", of({"u": {"anyOf": [of({"port": WHOLE}), of({"path": TEXT})]}}), '{{if index .u "port"}}{{else}}{{.u.path}}{{end}}', [],
     "1:31: error: may fail: .path may be absent: not in \"properties\" of s:1"),
    ("a tag that is one of several is not this", of({"u": {"anyOf": [NET, UNIX]}}), '{{if ne .u.kind "tcp"}}{{.u.path}}{{end}}', [], "1:24: error: may fail: .path may be absent: not in \"properties\" of s:1"),
    ("a tag that may be absent is not this", of({"u": {"oneOf": [{**TCP, "required": ["port"]}, UNIX]}}), '{{if eq .u.kind "tcp"}}{{else}}{{len .u.path}}{{end}}', DEFAULT, '1:32: error: may fail: "len" may get what it refuses'),
    ("the tag of another union", of({"u": UNION, "v": UNION}), '{{if eq .u.kind "tcp"}}{{.v.port}}{{end}}', [], "1:24: error: may fail: .port may be absent: not in \"properties\" of s:1"),
    ("a field that equals a tag", of({"u": UNION, "t": {"const": "tcp"}}), '{{if eq .t .u.kind}}{{.u.port}}{{end}}', [], "1:21: error: may fail: .port may be absent: not in \"properties\" of s:1"),
    ("a string that equals a tag or a constant", of({"u": UNION}), '{{if eq "tcp" .u.kind "tcp"}}{{.u.port}}{{end}}', [], "1:30: error: may fail: .port may be absent: not in \"properties\" of s:1"),
    ("a tag that equals a field", of({"u": UNION, "t": {"const": "tcp"}}), '{{if eq .u.kind .t}}{{.u.port}}{{end}}', [], "1:21: error: may fail: .port may be absent: not in \"properties\" of s:1"),
    ("a tag that equals a constant or a field", of({"u": UNION, "t": TEXT}), '{{if eq .u.kind "tcp" .t}}{{.u.port}}{{end}}', [], "1:27: error: may fail: .port may be absent: not in \"properties\" of s:1"),
    ("a tag of what a variable was", of({"u": UNION, "v": UNION}), '{{$x := .u}}{{if eq $x.kind "tcp"}}{{$x = .v}}{{$x.port}}{{end}}', [], "1:47: error: may fail: .port may be absent: the schema does not require it"),
    ("a tag in an or", of({"u": UNION, "b": {"type": "boolean"}}), '{{if or .b (eq .u.kind "tcp")}}{{.u.port}}{{end}}', [], "1:32: error: may fail: .port may be absent: not in \"properties\" of s:1"),
    ("a tag of what a variable is in one part", of({"u": UNION, "v": UNION}), '{{$x := .u}}{{if eq $x.kind "tcp"}}{{$x = .v}}{{else}}{{$x.path}}{{end}}{{$x.path}}', [], "1:73: error: may fail: .path may be absent: the schema does not require it"),
    ("after the test of a tag", of({"u": UNION}), '{{if eq .u.kind "tcp"}}{{end}}{{$.u.port}}', [], "1:31: error: may fail: .port may be absent: not in \"properties\" of s:1"),
    ("index of another key of a field", of({"c": of({"a": TEXT, "b": TEXT}, [])}), '{{if index .c "a"}}{{.c.b}}{{end}}', [], "1:20: error: may fail: .b may be absent: not in \"required\" of s:1"),
    ("index of another field", of({"c": of({"a": TEXT}, []), "d": of({"a": TEXT}, [])}), '{{if index .c "a"}}{{.d.a}}{{end}}', [], "1:20: error: may fail: .a may be absent: not in \"required\" of s:1"),
    ("where index of a field gives null", of({"c": of({"a": TEXT}, [])}), '{{if index .c "a"}}{{else}}{{.c.a}}{{end}}', [], "1:28: error: may fail: .a may be absent: not in \"required\" of s:1"),
    ("index by several keys tells of the last", of({"a": of({"b": of({"c": TEXT}, [])})}), '{{if index . "a" "b"}}{{.a.b.c}}{{end}}', [], "1:23: error: may fail: .c may be absent: not in \"required\" of s:1"),
    ("index by a key of the data is not followed", of({"c": of({"a": TEXT}, []), "k": TEXT}), '{{if index .c .k}}{{.c.a}}{{end}}', [], "1:19: error: may fail: .a may be absent: not in \"required\" of s:1"),
    ("index of what a variable was", of({"c": of({"a": TEXT}, []), "d": of({"a": TEXT}, [])}), '{{$x := .c}}{{if index $x "a"}}{{$x = .d}}{{$x.a}}{{end}}', [], "1:43: error: may fail: .a may be absent: the schema does not require it"),
    ("index by a number", of({"a": ITEMS}), "{{index .a 0}}", [], FIRST),
    ("the item after the last that has to be there", of({"a": {**ITEMS, "minItems": 2}}), "{{index .a 1}}\n{{index .a 2}}", [], few("2:1", "index", 3, low(3))),
    ("the second item of a list that is not empty", of({"a": ITEMS}), "{{if .a}}{{index .a 1}}{{end}}", [], few("1:10", "index", 2, NO_LEAST % 1)),
    ("an item where the list is empty", of({"a": ITEMS}), "{{if .a}}{{else}}{{index .a 0}}{{end}}", [], FIRST.replace("1:1", "1:18")),
    ("one item more than was asked for", of({"a": ITEMS}), "{{if ge (len .a) 1}}{{index .a 1}}{{end}}", [], few("1:21", "index", 2, NO_LEAST % 1)),
    ("one item more than a number", of({"a": ITEMS}), "{{if gt (len .a) 1}}{{index .a 2}}{{end}}", [], few("1:21", "index", 3, NO_LEAST % 1)),
    ("one item more than are just there", of({"a": ITEMS}), "{{if eq (len .a) 2}}{{index .a 2}}{{end}}", [], few("1:21", "index", 3, NO_LEAST % 1)),
    ("one item more than some", of({"a": ITEMS}), "{{if ne (len .a) 0}}{{index .a 1}}{{end}}", [], few("1:21", "index", 2, NO_LEAST % 1)),
    ("one item more than a length that is not zero", of({"a": ITEMS}), "{{if len .a}}{{index .a 1}}{{end}}", [], few("1:14", "index", 2, NO_LEAST % 1)),
    ("one item more, turned round", of({"a": ITEMS}), "{{if le 2 (len .a)}}{{index .a 2}}{{end}}", [], few("1:21", "index", 3, NO_LEAST % 1)),
    ("one item more than a length that is piped", of({"a": ITEMS}), "{{if len .a | lt 1}}{{index .a 2}}{{end}}", [], few("1:21", "index", 3, NO_LEAST % 1)),
    ("fewer items than a number", of({"a": ITEMS}), "{{if lt (len .a) 2}}{{index .a 0}}{{end}}", [], FIRST.replace("1:1", "1:21")),
    ("fewer items than a number, turned round", of({"a": ITEMS}), "{{if gt 2 (len .a)}}{{index .a 0}}{{end}}", [], FIRST.replace("1:1", "1:21")),
    ("fewer items than a length that is piped", of({"a": ITEMS}), "{{if len .a | gt 2}}{{index .a 0}}{{end}}", [], FIRST.replace("1:1", "1:21")),
    ("not more items than a number", of({"a": ITEMS}), "{{if gt (len .a) 1}}{{else}}{{index .a 0}}{{end}}", [], FIRST.replace("1:1", "1:29")),
    ("not just as many items", of({"a": ITEMS}), "{{if eq (len .a) 2}}{{else}}{{index .a 0}}{{end}}", [], FIRST.replace("1:1", "1:29")),
    ("items at least 0", of({"a": ITEMS}), "{{if ge (len .a) 0}}{{index .a 0}}{{end}}", [], FIRST.replace("1:1", "1:21")),
    ("a length that is 0", of({"a": ITEMS}), "{{if eq (len .a) 0}}{{index .a 0}}{{end}}", [], FIRST.replace("1:1", "1:21")),
    ("a length that is 0, by not", of({"a": ITEMS}), "{{if not (len .a)}}{{index .a 0}}{{end}}", [], FIRST.replace("1:1", "1:20")),
    ("a length below a number below zero", of({"a": ITEMS}), "{{if gt (len .a) -1}}{{index .a 0}}{{end}}", [], FIRST.replace("1:1", "1:22")),
    ("a length that is compared with one of the data", of({"a": ITEMS, "b": WHOLE}), "{{if gt (len .a) .b}}{{index .a 0}}{{end}}", [], FIRST.replace("1:1", "1:22")),
    ("the length of another list", of({"a": ITEMS, "b": ITEMS}), "{{if gt (len .a) 1}}{{index .b 1}}{{end}}", [], few("1:21", "index", 2, NO_LEAST % 1)),
    ("either of two lengths", of({"a": ITEMS, "b": ITEMS}), "{{if or (gt (len .a) 1) (gt (len .b) 1)}}{{index .a 1}}{{end}}", [], few("1:42", "index", 2, NO_LEAST % 1)),
    ("not both of two lengths", of({"a": ITEMS, "b": ITEMS}), "{{if and (lt (len .a) 2) (lt (len .b) 2)}}{{else}}{{index .a 1}}{{end}}", [], few("1:51", "index", 2, NO_LEAST % 1)),
    ("a length after what it would guard", of({"a": ITEMS}), "{{if and (index .a 1) (gt (len .a) 1)}}{{end}}", [], few("1:1", "index", 2, NO_LEAST % 1)),
    ("the length of a text that may be a list", of({"a": {"type": ["array", "string"], "items": TEXT}}), "{{if ge (len .a) 2}}{{index .a 1}}{{end}}", [], INDEX.replace("1:1", "1:21")),
    ("a variable of another path", of({"a": MAYBE, "c": MAYBE}), "{{$x := .c}}{{if $x}}{{.a.b}}{{end}}", [], NULL % 22),
    ("a variable that is assigned another path", of({"a": MAYBE, "c": MAYBE}), "{{$x := .a}}{{$x = .c}}{{if $x}}{{.a.b}}{{end}}", [], NULL % 33),
    ("a variable that is assigned a value", of({"a": MAYBE}), '{{$x := .a}}{{$x = "c"}}{{if $x}}{{.a.b}}{{end}}', [], NULL % 34),
    ("a variable that one part assigns", of({"a": MAYBE, "c": {"type": "boolean"}}), "{{$x := .a}}{{if .c}}{{$x = 1}}{{end}}{{if $x}}{{.a.b}}{{end}}", [], NULL % 48),
    ("a variable that the body of a range assigns", of({"a": MAYBE, "l": ITEMS}), "{{$x := .a}}{{range .l}}{{if $x}}{{$.a.b}}{{end}}{{$x = .}}{{end}}", [], NULL % 34),
    ("another variable of the name", of({"a": MAYBE, "c": MAYBE}), "{{$x := .a}}{{if true}}{{$x := .c}}{{if $x}}{{$.a.b}}{{end}}{{end}}", [], NULL % 45),
    ("a path of another dot", of({"a": of({"b": MAYBE}), "b": MAYBE}), "{{with .a}}{{if .b}}\n{{$.b.b}}{{end}}{{end}}", [], NULL.replace("1:%d", "2:1")),
    ("a value that is not the path's", of({"a": MAYBE}), "{{$x := or .a 1}}{{if $x}}{{.a.b}}{{end}}", [], NULL % 27),
    ("an empty variable", of({"a": MAYBE}), "{{$x := .a}}{{if $x}}{{else}}{{.a.b}}{{end}}", [], NULL % 30),
    ("a list that is not nil", of({"a": ITEMS}), "{{if ne .a nil}}{{index .a 0}}{{end}}", [], FIRST.replace("1:1", "1:17")),
    ("another list that is not empty", of({"a": ITEMS, "b": ITEMS}), "{{if .a}}{{index .b 0}}{{end}}", [], FIRST.replace("1:1", "1:10")),
    ("either of two lists", of({"a": ITEMS, "b": ITEMS}), "{{if or .a .b}}{{index .a 0}}{{end}}", [], FIRST.replace("1:1", "1:16")),
    ("the shorter of two lists", of({"a": {"anyOf": [{**ITEMS, "minItems": 3}, {**ITEMS, "minItems": 1}]}}), "{{index .a 1}}", [], few("1:1", "index", 2, low(2))),
    ("a list that a template may be handed", of({"a": {**ITEMS, "minItems": 2}, "b": {**ITEMS, "minItems": 1}}), '{{define "w"}}{{index . 1}}{{end}}{{template "w" .a}}{{template "w" .b}}', [], few("1:15", "index", 2, low(2))),
    ("the most that a list has says nothing", of({"a": {**ITEMS, "maxItems": 2}}), "{{index .a 0}}", [], FIRST),
    ("a list that an item may be", of({"a": {"type": "array", "minItems": 1, "items": ITEMS}}), "{{index .a 0 0}}", [], FIRST),
    ("an item of a list that may be null", of({"a": {**ITEMS, "type": ["array", "null"], "minItems": 1}}), "{{index .a 0}}", [], INDEX),
    ("a number below zero", of({"a": {**ITEMS, "minItems": 1}}), "{{index .a -1}}", [], INDEX),
    ("a number of the data", of({"a": {**ITEMS, "minItems": 1}, "b": WHOLE}), "{{index .a .b}}", [], INDEX),
    ("a byte of a text", of({"a": {**TEXT, "minLength": 3}}), "{{index .a 0}}", [], INDEX),
    ("a part past the end", of({"a": {**ITEMS, "minItems": 2}}), "{{slice .a 2}}\n{{slice .a 1 3}}", [], few("2:1", "slice", 3, low(3))),
    ("a part from past the end", of({"a": ITEMS}), "{{slice .a 1}}", [], FIRST.replace("index", "slice")),
    ("a part that is turned round", of({"a": {**ITEMS, "minItems": 3}}), "{{slice .a 2 1}}", [], '1:1: error: may fail: "slice" may get what it refuses'),
    ("an item by the index of another list", of({"l": ITEMS, "x": ITEMS}), "{{range $i, $e := .l}}{{len (index $.x $i)}}{{$e}}{{end}}", [],
     '1:23: error: may fail: "index" may get what it refuses'),
    ("an item by an index that is changed", of({"l": ITEMS}), "{{range $i, $e := .l}}{{$i = 7}}{{len (index $.l $i)}}{{$e}}{{end}}", [],
     '1:33: error: may fail: "index" may get what it refuses'),
    ("an item by the index of an item", of({"l": {"type": "array", "items": ITEMS}}), "{{range .l}}{{range $i, $e := .}}{{len (index $.l $i)}}{{$e}}{{end}}{{end}}", [],
     '1:34: error: may fail: "index" may get what it refuses'),
    ("a part of an item by an index", of({"l": {"type": ["array", "null"], "items": ITEMS}}), "{{range $i, $e := .l}}{{end}}{{range $i, $e := .l}}{{$x := $.l}}{{$e}}{{len (index $x 0 $i)}}{{end}}", [],
     '1:71: error: may fail: "index" may get what it refuses'),
    ("an entry by the key of another map", of({"m": {"type": "object", "additionalProperties": TEXT}, "x": {"type": "object", "additionalProperties": TEXT}}), "{{range $k, $v := .m}}{{len (index $.x $k)}}{{$v}}{{end}}", [], LENGTH % 23),
    ("a value before a break, of a kind that is refused", of({"x": ITEMS}), "{{$x := 1}}{{range .x}}{{$x = .}}{{break}}{{end}}{{lt $x 3}}", [],
     '1:50: error: may fail: "lt" may get what it refuses'),
    ("a value before a continue, in the next turn", of({"x": ITEMS}), "{{$x := 1}}{{range .x}}{{lt $x 3}}{{if .}}{{$x = .}}{{continue}}{{end}}{{end}}", [],
     '1:24: error: may fail: "lt" may get what it refuses'),
    ("a value before a break of a range inside", of({"x": ITEMS}), "{{$x := 1}}{{range .x}}{{range $.x}}{{$x = .}}{{break}}{{end}}{{lt $x 3}}{{end}}", [],
     '1:63: error: may fail: "lt" may get what it refuses'),
    ("a value that may be none", of({"us": {"type": "array", "items": of({"name": TEXT})}}), "{{$u := false}}{{range .us}}{{$u = .}}{{break}}{{end}}{{$u.name}}", [],
     "1:55: error: may fail: .name of a boolean, which may come here and has no fields"),
    ("a boolean that is not empty", of({"us": {"type": "array", "items": of({"name": TEXT})}}), "{{$u := true}}{{range .us}}{{$u = .}}{{end}}{{if $u}}{{$u.name}}{{end}}", [],
     "1:54: error: may fail: .name of a boolean, which may come here and has no fields"),
    ("a text that is not empty", of({"us": {"type": "array", "items": of({"name": TEXT})}}), '{{$u := "none"}}{{range .us}}{{$u = .}}{{end}}{{if $u}}{{$u.name}}{{end}}', [],
     "1:56: error: may fail: .name of a text, which may come here and has no fields"),
    ("variables that settle in 13 rounds", of({"x": ITEMS}), hands_on(12), [], "1:147: error: may fail: what the variables hold after it is not followed"),
    ("a part by a bound of the data", of({"a": {**ITEMS, "minItems": 3}, "b": WHOLE}), "{{slice .a .b}}", [], '1:1: error: may fail: "slice" is not followed by this check'),
    ("a part of a map", of({"a": of({})}), "{{slice .a}}", [], '1:1: error: may fail: "slice" may get what it refuses'),
    ("what is left of a part", of({"a": {**ITEMS, "minItems": 3}}), "{{index (slice .a 2) 1}}", [], few("1:1", "index", 2)),
    ("a part of a variable", LISTS, "{{$x := slice .rows 1}}{{index $x 0}}", [], few("1:24", "index", 1)),
    ("items of a list that says how many", LISTS, "x\n{{index .rows 1 0}}", [], few("2:1", "index", 2, low(2, 7))),
    ("items of a list in a list", LISTS, "{{index .rows 0 1}}", [], few("1:1", "index", 2, NO_LEAST % 8)),
    ("items of a list in a range", LISTS, "{{range .rows}}{{index . 0}}{{end}}", [], few("1:16", "index", 1, NO_LEAST % 8)),
    ("items of a list that a variable holds", LISTS, "{{$x := .names}}{{slice $x 2}}", [], few("1:17", "slice", 2, NO_LEAST % 13)),
    ("items of a list of a key", LISTS, '{{index . "names" 0}}', [], few("1:1", "index", 1, NO_LEAST % 13)),
    ("items of a list in parentheses", LISTS, "{{len (index (index .rows 0) 2)}}", [], few("1:1", "index", 3, NO_LEAST % 8)),
    ("items of a list by a reference", LISTS, "{{with .more}}{{index . 3}}{{end}}", DEFAULT, few("1:15", "index", 4, low(4, 25))),
    ("items of a list or null", LISTS, "{{with .maybe}}{{slice . 0 2}}{{end}}", DEFAULT, few("1:16", "slice", 2, NO_LEAST % 19)),
    ("items of lists of two places", LISTS, '{{define "w"}}{{index . 0}}{{end}}{{template "w" .names}}{{range .rows}}{{template "w" .}}{{end}}', [], few("1:15", "index", 1)),
    ("a field that another text of its line names", of({"a": TEXT, "b": TEXT}, ["a"]), "{{.a}} .b {{.b}}", [],
     '1:11: error: may fail: .b may be absent: not in "required" of s:1'),
    ("a field whose name begins another", of({"names": TEXT, "name": TEXT}, ["names"]), "{{.names}} {{.name}}", [],
     '1:12: error: may fail: .name may be absent: not in "required" of s:1'),

    ("index of a list by a text", of({"a": ITEMS}), '{{index .a "0"}}', [], INDEX),
    ("index of a map by a number", of({"a": of({"b": TEXT})}), "{{index .a 0}}", [], INDEX),
    ("index of null", of({"a": {"type": ["object", "null"]}}), '{{index .a "b"}}', [], INDEX),
    ("index into what may be missing", of({"a": of({"b": TEXT})}, []), '{{index . "a" "b"}}', [], INDEX),
    ("index into what an entry may not be", of({"a": {"type": "object", "additionalProperties": of({"b": TEXT})}}), '{{index .a "x" "b"}}', [], INDEX),
    ("index by a key that may be null", of({"a": {"type": "object"}, "k": {"type": ["string", "null"]}}), "{{print (index .a .k)}}", [], INDEX),
    ("an entry of a key of the data may be null", of({"a": {"type": "object", "additionalProperties": WHOLE}, "k": TEXT}), "{{lt (index .a .k) 3}}", [], '1:1: error: may fail: "lt" may get what it refuses'),
    ("each entry counts for a key of the data", of({"a": of({"b": WHOLE, "c": TEXT}), "k": TEXT}), "{{if index .a .k}}{{end}}{{with index .a .k}}{{len .}}{{end}}", [], '1:46: error: may fail: "len" may get what it refuses'),
    ("index without keys of what may be null", of({"a": {"type": ["string", "null"]}}), "{{index .a}}", [], INDEX),
    ("printf %d of a text", of({"a": TEXT}), '{{printf "%d" .a}}', [], PRINTF),
    ("printf %o of a text", of({"a": TEXT}), '{{printf "%o" .a}}', [], PRINTF),
    ("printf %b of a text", of({"a": TEXT}), '{{printf "%b" .a}}', [], PRINTF),
    ("printf %c of a text", of({"a": TEXT}), '{{printf "%c" .a}}', [], PRINTF),
    ("printf %t of a text", of({"a": TEXT}), '{{printf "%t" .a}}', [], PRINTF),
    ("printf %s of a number", of({"a": WHOLE}), '{{printf "%s" .a}}', [], PRINTF),
    ("printf %q of a number", of({"a": WHOLE}), '{{printf "%q" .a}}', [], PRINTF),
    ("printf %t of a number", of({"a": WHOLE}), '{{printf "%t" .a}}', [], PRINTF),
    ("printf %s of a truth value", of({"a": {"type": "boolean"}}), '{{printf "%s" .a}}', [], PRINTF),
    ("printf %d of a truth value", of({"a": {"type": "boolean"}}), '{{printf "%d" .a}}', [], PRINTF),
    ("printf %x of a truth value", of({"a": {"type": "boolean"}}), '{{printf "%x" .a}}', [], PRINTF),
    ("printf %s of a list", of({"a": ITEMS}), '{{printf "%s" .a}}', [], PRINTF),
    ("printf %x of a list", of({"a": ITEMS}), '{{printf "%x" .a}}', [], PRINTF),
    ("printf %d of a map", of({"a": {"type": "object"}}), '{{printf "%d" .a}}', [], PRINTF),
    ("printf %s of null", of({"a": {"type": ["string", "null"]}}), '{{printf "%s" .a}}', [], PRINTF),
    ("printf %d of a number or a text", of({"a": {"type": ["string", "integer"]}}), '{{printf "%d" .a}}', [], PRINTF),
    ("printf %s of any value", of({"a": True}), '{{printf "%s" .a}}', [], PRINTF),
    ("printf with a width of a list", of({"a": ITEMS}), '{{printf "%5v" .a}}', [], PRINTF),
    ("printf with - of a list", of({"a": ITEMS}), '{{printf "%-v" .a}}', [], PRINTF),
    ("printf with a width of a map", of({"a": {"type": "object"}}), '{{printf "%9v" .a}}', [], PRINTF),
    ("printf with a width of any value", of({"a": True}), '{{printf "%9v" .a}}', [], PRINTF),
    ("printf with + of a text", of({"a": TEXT}), '{{printf "%+s" .a}}', [], PRINTF),
    ("printf with 0 of a text", of({"a": TEXT}), '{{printf "%09s" .a}}', [], PRINTF),
    ("printf with a space of a text", of({"a": TEXT}), '{{printf "% x" .a}}', [], PRINTF),
    ("printf with + of a truth value", of({"a": {"type": "boolean"}}), '{{printf "%+v" .a}}', [], PRINTF),
    ("printf with + of a code", of({"a": WHOLE}), '{{printf "%+c" .a}}', [], PRINTF),
    ("printf with a precision of a number", of({"a": WHOLE}), '{{printf "%.2d" .a}}', [], PRINTF),
    ("printf with a precision of a quote", of({"a": TEXT}), '{{printf "%.2q" .a}}', [], PRINTF),
    ("printf with a width of five digits", of({"a": WHOLE}), '{{printf "%12345d" .a}}', [], PRINTF),
    ("printf without such a verb", of({"a": TEXT}), '{{printf "%z" .a}}', [], PRINTF),
    ("printf with a % at its end", of({"a": WHOLE}), '{{printf "%d%" .a}}', [], PRINTF),
    ("printf with too few arguments", of({"a": WHOLE}), '{{printf "%d%d" .a}}', [], PRINTF),
    ("printf with too many arguments", of({"a": WHOLE}), '{{printf "%%" .a}}', [], PRINTF),
    ("printf of what may be absent", of({"a": TEXT}, []), '{{printf "%s" .a}}', DEFAULT, PRINTF),
    ("printf of what is piped in the wrong place", of({"a": TEXT, "b": WHOLE}), '{{.b | printf "%d: %s" .a}}', [], PRINTF),
    ("printf of a second argument of two kinds", of({"a": TEXT, "b": {"type": ["string", "boolean"]}}), '{{printf "%s%s" .a .b}}', [], PRINTF),
    ("printf of an item of two kinds", of({"a": {"type": "array", "items": {"type": ["string", "array"]}}}), '{{range .a}}{{printf "%s" .}}{{end}}', [], '1:13: error: may fail: "printf" may get what it refuses'),
    ("printf by a format of the data", of({"a": TEXT}), "{{printf .a}}", [], '1:1: error: may fail: "printf" is not followed by this check'),
    ("a pattern beside other properties", {"type": "object", "patternProperties": {"^a": WHOLE}, "additionalProperties": TEXT}, "{{range .}}{{len .}}{{end}}", [], LENGTH % 12),
    ("a pattern without other properties", {"type": "object", "patternProperties": {"^a": TEXT}}, "{{range .}}{{len .}}{{end}}", [], LENGTH % 12),
    ("required by a pattern of another kind", {"type": "object", "required": ["a"], "patternProperties": {"^a": WHOLE}, "additionalProperties": TEXT}, "{{len .a}}", [], LENGTH % 1),
    ("a kind that no part tells of", of({"a": {"allOf": [{}, {"minLength": 1}]}}), "{{len .a}}", [], LENGTH % 1),
    ("required in an alternative of a part", {**of({"a": TEXT}, []), "allOf": [{"anyOf": [{"required": ["a"]}, {"required": ["b"]}]}, {}]}, "{{.a}}", [],
     '1:1: error: may fail: .a may be absent: not in "required" of s:1'),
    ("parts of allOf four references deep", {"allOf": [{"$ref": "#/$defs/a"}, {}], "$defs": {
        "a": {"allOf": [{"$ref": "#/$defs/b"}, {}]}, "b": {"allOf": [{"$ref": "#/$defs/c"}, {}]}, "c": {"allOf": [{"$ref": "#/$defs/d"}, {"required": ["x"]}]},
        "d": {"type": "object", "properties": {"x": TEXT}}}}, "{{.x}}", [], "1:1: error: may fail: .x of nothing, which may come here and has no fields"),
    ("an alternative beside properties that does not require the field", of({"a": TEXT}, [], anyOf=[{"required": ["a"]}, {"required": ["b"]}]), "{{.a}}", [],
     '1:1: error: may fail: .a may be absent: not in "required" of s:1'),
    ("33 alternatives beside properties", of({"a": TEXT}, [], anyOf=[{"required": ["a"]}] * 33), "{{.a}}", [], '1:1: error: may fail: .a may be absent: not in "required" of s:1'),
    ("properties beside a reference of draft-07", {"$ref": "#/definitions/x", "required": ["a"], "definitions": {"x": {"type": "object", "properties": {"a": TEXT}}}, **DRAFT_07},
     "{{.a}}", [], '1:1: error: may fail: .a may be absent: no "required" at s:1'),
    ("items after a prefix", of({"a": {"type": "array", "prefixItems": [WHOLE], "items": TEXT}}), "{{range .a}}{{len .}}{{end}}", [], LENGTH % 13),
    ("items of a list", of({"a": {"type": "array", "items": [TEXT]}}, **DRAFT_07), "{{range .a}}{{len .}}{{end}}", [], LENGTH % 13),
    ("a reference to elsewhere", of({"a": {"$ref": "other.json"}}), "{{len .a}}", [], LENGTH % 1),
    ("beside a reference to elsewhere of draft-07", of({"a": {"$ref": "other.json", "type": "string"}}, **DRAFT_07), "{{len .a}}", [], LENGTH % 1),
    ("a type beside a reference to what lets any value through", of({"a": {"$ref": "#/$defs/x", "type": "string"}}, **{"$defs": {"x": {}}}), "{{len .a}}", [], LENGTH % 1),
    ("a name of what is no definition at the top", of({"a": {"$ref": "#x"}}, **{"$defs": {"d": {"$defs": {"x": {"$anchor": "x", "type": "string"}}}}}), "{{len .a}}", [], LENGTH % 1),
    ("a name among definitions of earlier drafts", of({"a": {"$ref": "#x"}}, definitions={"d": {"$anchor": "x", "type": "string"}}), "{{len .a}}", [], LENGTH % 1),
    ("a name among definitions of later drafts", of({"a": {"$ref": "#x"}}, **{"$defs": {"d": {"$id": "#x", "type": "string"}}}, **DRAFT_07), "{{len .a}}", [], LENGTH % 1),
    ("a name of a constant", of({"a": {"$ref": "#x"}}, **{"$defs": {"d": {"enum": [{"$anchor": "x", "type": "string"}]}}}), "{{len .a}}", [], LENGTH % 1),
    ("a name of 2019-09 in draft-07", of({"a": {"$ref": "#x"}}, definitions={"d": {"$anchor": "x", "type": "string"}}, **DRAFT_07), "{{len .a}}", [], LENGTH % 1),
    ("a name of draft-07 in 2020-12", of({"a": {"$ref": "#x"}}, **{"$defs": {"d": {"$id": "#x", "type": "string"}}}), "{{len .a}}", [], LENGTH % 1),
    ("a name of draft-07 in draft-04", of({"a": {"$ref": "#x"}}, definitions={"d": {"$id": "#x", "type": "string"}}, **DRAFT_04), "{{len .a}}", [], LENGTH % 1),
    ("the name of another definition", of({"a": {"$ref": "#x"}}, **{"$defs": {"x": {"$anchor": "y", "type": "string"}, "y": {"$anchor": "x", "type": "integer"}}}), "{{len .a}}", [], LENGTH % 1),
    ("what a name stands for", of({"a": {"$ref": "#x"}}, **{"$defs": {"d": {"$anchor": "x", "type": "object", "properties": {"b": TEXT}}}}), "{{.a.b}}", [],
     '1:1: error: may fail: .b may be absent: no "required" at s:1'),
    ("an identifier below the top", of({"a": {"$ref": "#/$defs/x"}}, **{"$defs": {"x": {"$id": "x", "type": "string"}}}), "{{len .a}}", [], LENGTH % 1),
    ("an identifier of draft-04 below the top", of({"a": {"$ref": "#/definitions/x"}}, definitions={"x": {"id": "x", "type": "string"}}, **DRAFT_04), "{{len .a}}", [], LENGTH % 1),
    ("slice", of({"a": TEXT}), "{{slice .a 1}}", [], '1:1: error: may fail: "slice" is not followed by this check'),
]

# .. and where more than one line is said: each place, once, and nothing that only follows of another
ABSENT = '%s: error: may fail: .%s may be absent: not in "properties" of s:1'
OPTIONAL = '%s: error: may fail: .%s may be absent: not in "required" of s:1'
SEVERAL = [
    ("each action", of({"a": TEXT}, []), "{{.a}}\n{{.b}}\n{{len .c}}", [], [OPTIONAL % ("1:1", "a"), ABSENT % ("2:1", "b"), ABSENT % ("3:1", "c")]),
    ("both parts of a condition", of({"a": {"type": "boolean"}}), "{{if .a}}{{.x}}\n{{else}}{{.y}}{{end}}", [], [ABSENT % ("1:10", "x"), ABSENT % ("2:9", "y")]),
    ("in a range and after it", of({"a": {"type": "array", "items": of({})}}), "{{range .a}}{{.x}}{{end}}\n{{.y}}", [], [ABSENT % ("1:13", "x"), ABSENT % ("2:1", "y")]),
    ("a header and its body", of({"a": {"type": "object"}, "n": WHOLE}), "{{if len .n}}\n{{len .a.y}}{{end}}", [], [LENGTH % 1, '2:1: error: may fail: .y may be absent: no "properties" at s:1']),
    ("what a field guards that is never there", of({"a": {"type": "object"}}), "{{if .x}}\n{{len .a.y}}{{end}}", [], [ABSENT % ("1:1", "x")]),
    ("nothing follows", of({}), "{{$x := .a}}{{$x.b}}{{range $x}}{{.c}}{{end}}{{with .d}}{{.e}}{{end}}{{len $x}}", [], [ABSENT % ("1:1", "a"), ABSENT % ("1:46", "d")]),
    ("in a template that is called twice", of({}), '{{define "w"}}{{.x}}{{end}}{{.y}}{{template "w" .}}\n{{template "w" .}}', [], [ABSENT % ("1:28", "y"), ABSENT % ("1:15", "x")]),
    ("in a template that calls itself", of({"a": TEXT}), '{{define "w"}}{{.a}}{{.x}}{{template "w" .}}{{end}}{{template "w" .}}', [], [ABSENT % ("1:21", "x")]),
    ("items of two lists in a line", LISTS, "{{index .names 0}}{{index .rows 0 0}}", [],
     [few("1:1", "index", 1, NO_LEAST % 13), few("1:19", "index", 1, NO_LEAST % 8)]),
    ("fields of one name in a line", of({"b": TEXT}, []), "x {{.b}}{{if .b}}{{end}}{{with $x := .b}}{{$x}}{{end}}", [],
     [OPTIONAL % (f"1:{column}", "b") for column in (3, 9, 25)]),
    ("an else branch, a call, a control and a template on one line", of({"b": TEXT}, []),
     'é {{if true}}{{else if .b}}{{end}} {{template "w" .b}}{{define "w"}}{{.}}{{end}}{{with .b}}{{end}}{{template "v" .}}{{define "v"}}{{.b}}{{end}}', [],
     [OPTIONAL % (f"1:{column}", "b") for column in (14, 36, 81, 131)]),
    ("templates that are not there", of({}), 'x\n{{template "one"}}\n{{if true}}{{template "two"}}{{end}}', ["--stop", "three"],
     ['2:1: error: may fail: there is no template "one"', '3:12: error: may fail: there is no template "two"']),
]

# .. where what is said has a line of the schema and a value for which the template fails, the smallest that there is: each line is said
PORTS = """{
  "type": "object",
  "required": ["ports"],
  "properties": {
    "ports": {"type": "array", "items": {"$ref": "#/$defs/port"}},
    "tls": {
      "type": "object",
      "properties": {"secret": {"type": "string"}}
    },
    "owner": {
      "type": ["object", "null"],
      "required": ["name"]
    }
  },
  "$defs": {
    "port": {
      "type": "object",
      "properties": {"number": {"type": "integer"}, "protocol": {"enum": ["TCP", "UDP"]}},
      "required": ["number"]
    }
  }
}"""
CALL = '{{template "u"}}'


def shown(*values):
    """What is said of a call of a template that is not there, and over which value, if one is shown."""
    notes = [f'1:1: note: fails for {json.dumps(value, separators=(",", ":"))}: no template "u"' for value in values]
    return ['1:1: error: may fail: there is no template "u"', *notes]


SHOWN = [
    ("a bound that draft-04 excludes", of({"n": {"type": "integer", "minimum": 5, "exclusiveMinimum": True}}, **DRAFT_04), "{{len .n}}", [],
     ['1:1: error: may fail: "len" may get what it refuses', '1:1: note: fails for {"n":6}: len: wrong kind of argument']),
    ("in a range by a reference", PORTS, "{{range .ports}}\n{{.protocol}}{{end}}", [],
     ['2:1: error: may fail: .protocol may be absent: not in "required" of s:19',
      '2:1: note: fails with --missingkey error for {"ports":[{"number":1}]}: no entry for key "protocol"']),
    ("at the top", PORTS, "{{.tls}}", [],
     ['1:1: error: may fail: .tls may be absent: not in "required" of s:3', '1:1: note: fails with --missingkey error for {"ports":[]}: no entry for key "tls"']),
    ("a schema without required", PORTS, '{{with index . "tls"}}{{.secret}}{{end}}', [],
     ['1:23: error: may fail: .secret may be absent: no "required" at s:6',
      '1:23: note: fails with --missingkey error for {"ports":[],"tls":{"other":"a"}}: no entry for key "secret"']),
    ("a name that is not listed", PORTS, "{{range $p := .ports}}{{$p.numbr}}{{end}}", [],
     ['1:23: error: may fail: .numbr may be absent: not in "properties" of s:18',
      '1:23: note: fails with --missingkey error for {"ports":[{"number":1}]}: no entry for key "numbr"']),
    ("null by a type", PORTS, "{{.owner.name}}", ["--missingkey", "default"],
     ["1:1: error: may fail: .name of null, which may come here and has no fields", '1:1: note: fails for {"owner":null,"ports":[]}: no field "name" here']),
    ("in a template that is called", PORTS, '{{define "p"}}{{.protocol}}{{end}}{{range .ports}}{{template "p" .}}{{end}}', [],
     ['1:15: error: may fail: .protocol may be absent: not in "required" of s:19',
      '1:15: note: fails with --missingkey error for {"ports":[{"number":1}]}: no entry for key "protocol"']),
    ("null", of({"a": {"type": ["object", "null"], "required": ["b"]}}), "{{.a.b}}", [],
     ["1:1: error: may fail: .b of null, which may come here (s:1) and has no fields", '1:1: note: fails for {"a":null}: no field "b" here']),
    ("a field by a mode", of({"a": TEXT}, []), "{{.a}}", ["--missingkey", "error"],
     ['1:1: error: may fail: .a may be absent: not in "required" of s:1', '1:1: note: fails for {}: no entry for key "a"']),
    ("two alternatives without the field", of({"a": {"anyOf": [of({"b": TEXT}), of({"c": TEXT}), of({"d": TEXT})]}}), "{{.a.b}}", [],
     ["1:1: error: may fail: .b may be absent: the schema does not require it", '1:1: note: fails with --missingkey error for {"a":{"c":"a"}}: no entry for key "b"']),
    ("an alternative", of({"a": {"anyOf": [{"type": "null"}, TEXT]}}), "{{range .a}}{{end}}", [],
     ["1:1: error: may fail: a range over a text, which may come here (s:1)", '1:1: note: fails for {"a":"a"}: can\'t range over this value']),
    ("an empty list", of({"a": ITEMS}), "{{index .a 0}}", [], [FIRST, '1:1: note: fails for {"a":[]}: index: out of range']),
    ("a list that is not empty", of({"a": {**ITEMS, "minItems": 2}}), "{{index .a 2}}", [], [few("1:1", "index", 3, low(3)), '1:1: note: fails for {"a":["a","a"]}: index: out of range']),
    ("an empty text", of({"a": TEXT}), "{{slice .a 1}}", [],
     ['1:1: error: may fail: "slice" is not followed by this check', '1:1: note: fails for {"a":""}: slice: out of range']),
    ("a length", of({"a": {"type": "string", "minLength": 3}}), "{{slice .a 4}}", [],
     ['1:1: error: may fail: "slice" is not followed by this check', '1:1: note: fails for {"a":"aaa"}: slice: out of range']),
    ("no value fails", of({"a": {"type": "string", "minLength": 3}}), "{{slice .a 1}}", [], ['1:1: error: may fail: "slice" is not followed by this check']),
    ("bounds", of({"a": {"type": "integer", "minimum": 5, "maximum": 9}}), "{{range .a}}{{.b}}{{end}}", [],
     ["1:13: error: may fail: .b of a number, which may come here and has no fields", '1:13: note: fails for {"a":5}: no field "b" here']),
    ("a constant", of({"a": {"enum": ["x", None]}}), "{{len .a}}", [],
     ['1:1: error: may fail: "len" may get what it refuses', '1:1: note: fails for {"a":null}: len: wrong kind of argument']),
    ("a pattern", of({"a": {"type": "string", "pattern": "^x"}}), "{{range .a}}{{end}}", [],
     ["1:1: error: may fail: a range over a text, which may come here (s:1)", '1:1: note: fails for {"a":"x"}: can\'t range over this value']),
    ("a pattern that is not read", of({"a": {"type": "string", "pattern": "^(?=x)"}}), "{{range .a}}{{end}}", [],
     ["1:1: error: may fail: a range over a text, which may come here (s:1)"]),
    ("a pattern and a length", of({"a": {"type": "string", "pattern": "^[b-d]+$", "minLength": 4}}), "{{range .a}}{{end}}", [],
     ["1:1: error: may fail: a range over a text, which may come here (s:1)", '1:1: note: fails for {"a":"bbbb"}: can\'t range over this value']),
    ("a pattern beside what fails", of({"a": {"type": "string", "pattern": "^v[0-9]+$"}, "b": WHOLE}), "{{.a}}{{range $i, $e := .b}}{{end}}", [],
     ["1:7: error: may fail: a range over a number, which may come here (s:1)", '1:7: note: fails for {"a":"v0","b":1}: can\'t range over this value']),
    ("a pattern of what may be left out", of({"a": {"type": "string", "pattern": "^x"}}, []), "{{.a}}", [],
     ['1:1: error: may fail: .a may be absent: not in "required" of s:1', '1:1: note: fails with --missingkey error for {}: no entry for key "a"']),
    ("a text of its format", of({"a": {"type": "string", "format": "date"}}), "{{range .a}}{{end}}", [],
     ["1:1: error: may fail: a range over a text, which may come here (s:1)", '1:1: note: fails for {"a":"2000-01-01"}: can\'t range over this value']),
    ("one needs another", of({"a": TEXT, "b": TEXT}, [], dependentRequired={"a": ["b"]}), '{{if index . "b"}}{{else}}{{.a}}{{end}}', [],
     ['1:27: error: may fail: .a may be absent: not in "required" of s:1', '1:27: note: fails with --missingkey error for {}: no entry for key "a"']),
    ("two choices together", of({"a": TEXT, "b": TEXT}, []), '{{if index . "a"}}{{if not (index . "b")}}{{.b}}{{end}}{{end}}', [],
     ['1:43: error: may fail: .b may be absent: not in "required" of s:1', '1:43: note: fails with --missingkey error for {"a":"a"}: no entry for key "b"']),
    ("a variable that is assigned", of({"a": of({"b": TEXT}, [])}), "{{$x := .a}}{{$x = .a}}{{$x.b}}", [],
     ["1:24: error: may fail: .b may be absent: the schema does not require it", '1:24: note: fails with --missingkey error for {"a":{}}: no entry for key "b"']),
    ("a template that is not there", of({}), '{{template "u"}}', [], ['1:1: error: may fail: there is no template "u"', '1:1: note: fails for {}: no template "u"']),
    ("not", of({"a": {"enum": [None, 1], "not": {"type": "null"}}}), CALL, [], shown({"a": 1})),
    ("allOf", of({"a": {"allOf": [{"enum": [1, 2]}, {"enum": [2, 3]}]}}), CALL, [], shown({"a": 2})),
    ("maps of allOf", {"allOf": [{"type": "object", "required": ["a"], "properties": {"a": WHOLE}}, {"type": "object", "required": ["b"], "properties": {"b": TEXT}}]}, CALL, [],
     shown({"a": 1, "b": "a"})),
    ("alternatives beside properties", of({"a": WHOLE}, anyOf=[of({"b": TEXT}, **OPEN)], **OPEN), CALL, [], shown({"a": 1, "b": "a"})),
    ("properties beside a reference", {"$ref": "#/$defs/x", "required": ["b"], "properties": {"b": TEXT}, "$defs": {"x": of({"a": WHOLE}, **OPEN)}}, CALL, [], shown({"a": 1, "b": "a"})),
    ("if and then", of({"a": {"enum": [1, 2], "if": {"const": 1}, "then": False}}), CALL, [], shown({"a": 2})),
    ("if and else", of({"a": {"enum": [1, 2], "if": {"const": 2}, "else": False}}), CALL, [], shown({"a": 2})),
    ("if of draft-06", of({"a": {"enum": [1], "if": {"const": 1}, "then": False}}, **DRAFT_06), CALL, [], shown()),
    ("pattern properties", {"type": "object", "minProperties": 1, "patternProperties": {"^x": {"const": 5}}}, CALL, [], shown({"x": 5})),
    ("pattern properties that are not among the others", {"type": "object", "minProperties": 1, "patternProperties": {"^x": {"const": 5}}, "additionalProperties": False}, CALL, [], shown()),
    ("a key that no pattern matches", of({"b": WHOLE}, patternProperties={"^x": {"const": 5}}), CALL, [], shown({"b": 1})),
    ("a pattern that a key may match", of({"b": WHOLE}, patternProperties={"^(?=x)": {"const": 5}}), CALL, [], shown()),
    ("prefix items", of({"a": {"type": "array", "prefixItems": [{"const": 5}], "items": False, "minItems": 1}}), CALL, [], shown({"a": [5]})),
    ("items after a prefix", of({"a": {"type": "array", "prefixItems": [{"const": 5}], "items": {"const": 6}, "minItems": 2}}), CALL, [], shown({"a": [5, 6]})),
    ("a list of items", of({"a": {"type": "array", "items": [{"const": 5}], "additionalItems": {"const": 6}, "minItems": 2}}, **DRAFT_07), CALL, [], shown({"a": [5, 6]})),
    ("contains", of({"a": {"const": [5, 6], "contains": {"const": 6}}}), CALL, [], shown({"a": [5, 6]})),
    ("contains nothing", of({"a": {"const": [5, 6], "contains": {"const": 7}}}), CALL, [], shown()),
    ("names of properties", {"type": "object", "enum": [{"ab": 1}, {"c": 2}], "propertyNames": {"maxLength": 1}}, CALL, [], shown({"c": 2})),
    ("dependent schemas", of({"a": TEXT, "b": TEXT}, ["a"], dependentSchemas={"a": {"required": ["b"]}}), CALL, [], shown({"a": "a", "b": "a"})),
    ("dependencies", of({"a": TEXT, "b": TEXT}, ["a"], dependencies={"a": ["b"]}, **DRAFT_07), CALL, [], shown({"a": "a", "b": "a"})),
    ("an alternative that is not decided", of({"a": {"oneOf": [TEXT, {"type": "string", "pattern": "^(?=x)"}]}}), CALL, [], shown()),
    ("an alternative of another kind than what is not decided", of({"a": {"oneOf": [WHOLE, {"type": "string", "pattern": "^(?=x)"}]}}), CALL, [], shown({"a": 1})),
    ("not of what is not decided", of({"a": {"type": "string", "not": {"pattern": "^(?=x)"}}}), CALL, [], shown()),
    ("a reference to elsewhere", of({"a": {"$ref": "other.json"}}), CALL, [], shown()),
    ("a reference beside an identifier below the top", of({"a": {"$ref": "#/$defs/x"}}, **{"$defs": {"x": {"$id": "x", "const": 1}}}), CALL, [], shown()),
    ("a reference that is not followed", of({"a": {"$dynamicRef": "#x"}}), CALL, [], shown()),
    ("unevaluated items", of({"a": {"const": [1], "unevaluatedItems": False}}), CALL, [], shown()),
    ("unevaluated properties", of({"a": WHOLE}, unevaluatedProperties=False), CALL, [], shown()),
    ("a range over two variables", of({"a": WHOLE}), "{{range $i, $e := .a}}{{end}}", [],
     ["1:1: error: may fail: a range over a number, which may come here (s:1)", '1:1: note: fails for {"a":1}: can\'t range over this value']),
]

# patterns, and the text of each that a counterexample has; none where it is not read. Python's `re` finds the pattern in the text too
PATTERNS = [
    ("^x", "x"), ("x+y", "xy"), ("^[b-d]{2}$", "bb"), ("^[0-9]{3}-[0-9]{4}$", "000-0000"), (r"^v\d+\.\d+$", "v0.0"), ("^(foo|bar)$", "foo"),
    ("^(?:b|c)d?$", "b"), ("^[^/]b$", "ab"), ("^[^a-z]$", "0"), ("^[b-z0-9]([-b-z0-9]*[b-z0-9])?$", "b"), ("^#[0-9A-Fa-f]{6}$", "#000000"),
    (r"^[\w.-]+@b\.org$", "a@b.org"), ("^(b{2,3}){2}$", "bbbb"), ("^b*$|^c$", ""), (r"^\$b\{c\}$", "$b{c}"), ("^[]-]$", None), ("^b(?=c)", None),
    (r"^\bb", None), ("^b{2", None), ("^(b", None), ("b)", None), ("[b", None), ("^é$", None), ("b^c", None), ("b$c", None), ("^(?P<n>b)", None),
    ("(" * 9 + "b" + ")" * 9, None), ("^b{200}$", None),
]

# samples, and the schema that is inferred of them but for `$schema`; and what is said of files that are no data
INFERRED = [
    ("a text", ["x"], {"type": "string"}),
    ("kinds", [None, True, 1, "x", [], {}], {"type": ["null", "boolean", "integer", "string", "array", "object"]}),
    ("a map", [{"b": 1, "a": "x"}], {"type": "object", "properties": {"a": {"type": "string"}, "b": {"type": "integer"}}, "required": ["a", "b"]}),
    ("a key that one has", [{"a": 1, "b": 2}, {"a": 3}], {"type": "object", "properties": {"a": {"type": "integer"}, "b": {"type": "integer"}}, "required": ["a"]}),
    ("a value that may be null", [{"a": None}, {"a": "x"}], {"type": "object", "properties": {"a": {"type": ["null", "string"]}}, "required": ["a"]}),
    ("items", [[1, "x"], [], [{"a": 1}]], {"type": "array", "items": {"type": ["integer", "string", "object"], "properties": {"a": {"type": "integer"}}, "required": ["a"]}}),
    ("no items", [[]], {"type": "array"}),
    ("a list and a map", [[1], {"a": 1}], {"type": ["array", "object"], "items": {"type": "integer"}, "properties": {"a": {"type": "integer"}}, "required": ["a"]}),
    ("maps in a list", [[{"a": 1, "b": 1}, {"a": 1}]], {"type": "array", "items": {"type": "object", "properties": {"a": {"type": "integer"}, "b": {"type": "integer"}}, "required": ["a"]}}),
    ("no key that each has", [{"a": 1}, {}], {"type": "object", "properties": {"a": {"type": "integer"}}, "required": []}),
    ("names with escapes", [{'a"/~b': 1}], {"type": "object", "properties": {'a"/~b': {"type": "integer"}}, "required": ['a"/~b']}),
]
MANY_KEYS = {f"k{number}": "x" for number in range(41)}
TOO_MANY_KEYS = {f"k{number}": number if number % 2 else "x" for number in range(301)}
INFERRED += [
    ("other keys in each map", [{"a": 1}, {"b": 2}], {"type": "object", "additionalProperties": {"type": "integer"}}),
    ("other keys, and values of two types", [{"a": 1}, {"b": "x"}],
     {"type": "object", "properties": {"a": {"type": "integer"}, "b": {"type": "string"}}, "required": []}),
    ("many keys with values of one type", [MANY_KEYS], {"type": "object", "additionalProperties": {"type": "string"}}),
    ("too many keys", [TOO_MANY_KEYS], {"type": "object", "additionalProperties": {"type": ["string", "integer"]}}),
]
# the paths of maps whose keys are data, the samples, and the schema
INFERRED_BY = [
    ([".labels"], [{"labels": {"app": "a"}}], {"type": "object", "properties": {"labels": {"type": "object", "additionalProperties": {"type": "string"}}}, "required": ["labels"]}),
    ([".a.b", "."], [{"a": {"b": 1}}], {"type": "object", "additionalProperties": {"type": "object", "properties": {"b": {"type": "integer"}}, "required": ["b"]}}),
    ([".a.b"], [{"a": [{"b": {"c": 1}}], "ab": {"c": 1}}], {"type": "object", "properties": {
        "a": {"type": "array", "items": {"type": "object", "properties": {"b": {"type": "object", "additionalProperties": {"type": "integer"}}}, "required": ["b"]}},
        "ab": {"type": "object", "properties": {"c": {"type": "integer"}}, "required": ["c"]}}, "required": ["a", "ab"]}),
]
NOT_INFERRED = [
    ("not JSON", ["{,}"], (1, "d0:1:2: error: not JSON: a key in double quotes is wanted\n")),
    ("not whole", ['{"a": 1}', "1.5"], (1, "d1:1:1: error: number not whole or out of range: .: 1.5 is not whole or is out of range\n")),
]

# a schema in which a part has no values, and where that is, with what precedes the words; or nothing where each part has some
EMPTY = [
    ("the whole", False, "1:1: warning"),
    ("no constants", {"enum": []}, "1:1: warning"),
    ("constant of another type", of({"a": {"type": "string", "const": 1}}, []), "1:66: warning: /properties/a"),
    ("constants of another type", {"items": {"type": ["null", "object"], "enum": [1, "x"]}}, "1:2: warning: /items"),
    ("constant that is none of some", {"$defs": {"a": {"const": 1, "enum": ["x"]}}}, "1:12: warning: /$defs/a"),
    ("required property", of({"a": False}), "1:66: warning: /properties/a"),
    ("alternative", {"anyOf": [True, False]}, "1:18: warning: /anyOf/1"),
    ("inside an alternative", {"oneOf": [{"items": {"enum": []}}]}, "1:13: warning: /oneOf/0/items"),
    ("the first of several", {"properties": {"a": {"enum": []}, "b": {"enum": []}}}, "1:17: warning: /properties/a"),
    ("property that is never there", of({"a": False}, []), ""),
    ("no items and no other properties", {"items": False, "additionalProperties": False}, ""),
    ("a constant of that type", {"type": "string", "const": "x", "default": False, "examples": [{"enum": []}]}, ""),
]

# a schema that says less than it seems to, a template, and a value for which it fails and which is valid
MISREAD = [
    ("name of a definition below the top", {"type": "object", "required": ["a"], "properties": {
        "a": {"$ref": "#/properties/b/$defs/x/properties/y"},
        "b": {"$defs": {"x": {"$id": "http://example.org/x", "properties": {"y": {"$ref": "#/$defs/s"}}, "$defs": {"s": WHOLE}}}}}, "$defs": {"s": TEXT}}, "{{len .a}}", {"a": 5}),
    ("name of draft-04", {**DRAFT_04, "type": "object", "required": ["a"], "properties": {
        "a": {"$ref": "#/properties/b/definitions/x/properties/y"},
        "b": {"definitions": {"x": {"id": "http://example.org/x", "properties": {"y": {"$ref": "#/definitions/s"}}, "definitions": {"s": WHOLE}}}}}, "definitions": {"s": TEXT}}, "{{len .a}}", {"a": 5}),
    ("const of draft-04", {**DRAFT_04, "type": "object", "required": ["a"], "properties": {"a": {"const": "x"}}}, "{{len .a}}", {"a": 5}),
    ("alternatives of draft-03", {"$schema": "http://json-schema.org/draft-03/schema#", "type": "object", "properties": {"a": {"anyOf": [TEXT]}}}, "{{len .a}}", {"a": 5}),
    ("type beside a reference of draft-07", {**DRAFT_07, "type": "object", "required": ["a"], "properties": {"a": {"$ref": "#/definitions/x", "type": "string"}}, "definitions": {"x": True}},
     "{{len .a}}", {"a": 5}),
    ("other properties beside a pattern", {"type": "object", "patternProperties": {"^a": WHOLE}, "additionalProperties": TEXT}, "{{range .}}{{len .}}{{end}}", {"a": 5}),
    ("items beside a prefix", {"type": "array", "prefixItems": [WHOLE], "items": TEXT}, "{{range .}}{{len .}}{{end}}", [5]),
    ("a list of items of draft-07", {**DRAFT_07, "type": "array", "items": [TEXT]}, "{{range .}}{{len .}}{{end}}", ["x", 5]),
    ("required beside a reference of draft-06", {**DRAFT_06, "$ref": "#/definitions/x", "required": ["a"], "definitions": {"x": {"type": "object", "properties": {"a": TEXT}}}}, "{{len .a}}", {}),
]

# a schema that is not read, by its text; before what in it the place is, or none for its beginning; and what is said
UNREAD = [
    ("a letter too few", '{"type": "object",\n "propertie": {}}', '"propertie"', '/propertie' + near("propertie", "properties")),
    ("a letter too many", '{"type": "object",\n "titles": {}}', '"titles"', '/titles' + near("titles", "title")),
    ("another letter inside", '{"properties": {"a": {"items": {"minimun": 1}}}}', '"minimun"', '/properties/a/items/minimun' + near("minimun", "minimum")),
    ("two letters exchanged", '{"requierd": []}', '"requierd"', '/requierd' + near("requierd", "required")),
    ("the first letters exchanged", '{"ytpe": "string"}', '"ytpe"', '/ytpe' + near("ytpe", "type")),
    ("in an alternative", '{"anyOf": [true, {"titel": 1}]}', '"titel"', '/anyOf/1/titel' + near("titel", "title")),
    ("in an alternative beside properties", '{"properties": {}, "anyOf": [{"titel": 1}]}', '"titel"', '/anyOf/0/titel' + near("titel", "title")),
    ("in the other alternatives", '{"anyOf": [true], "oneOf": [{"titel": 1}]}', '"titel"', '/oneOf/0/titel' + near("titel", "title")),
    ("in what is left out", '{"not": {"titel": 1}}', '"titel"', '/not/titel' + near("titel", "title")),
    ("in a list of items", '{"items": [true, {"titel": 1}]}', '"titel"', '/items/1/titel' + near("titel", "title")),
    ("in a definition", '{"items": {"$ref": "#/$defs/a"}, "$defs": {"a": {"titel": 1}}}', '"titel"', '/$defs/a/titel' + near("titel", "title")),
    ("in a definition of earlier drafts", '{"items": {"$ref": "#/definitions/a~1b"}, "definitions": {"a/b": {"titel": 1}}}', '"titel"', '/definitions/a~1b/titel' + near("titel", "title")),
    ("no type in a definition", '{"items": {"$ref": "#/$defs/a"}, "$defs": {"a": {"type": "text"}}}', '"type"', '/$defs/a/type: no type "text"'),
    ("minimum of draft 4", '{"minimum": true}', '"minimum"', "/minimum: a number is wanted"),
    ("a text for a bound", '{"exclusiveMinimum": "1"}', '"exclusiveMinimum"', "/exclusiveMinimum: a number is wanted"),
    ("a part for a count", '{"minItems": 1.5}', '"minItems"', "/minItems: an integer from 0 on is wanted"),
    ("a text for a count", '{"minLength": "1"}', '"minLength"', "/minLength: an integer from 0 on is wanted"),
    ("a count below zero", '{"minItems": -1}', '"minItems"', "/minItems: an integer from 0 on is wanted"),
    ("no such type", '{"type": "text"}', '"type"', '/type: no type "text"'),
    ("no such type in a list", '{"type": ["string", "text"]}', '"text"', '/type/1: no type "text"'),
    ("a type that is no text", '{"type": 1}', '"type"', "/type: the name of a type is wanted, or a list of them"),
    ("in a definition below the top", '{"items": {"$ref": "#/items/$defs/a", "$defs": {"a": {"titel": 1}}}}', '"titel"', '/items/$defs/a/titel' + near("titel", "title")),
    ("draft-03", '{"$schema": "http://json-schema.org/draft-03/schema#"}', '"$schema"', NO_DRAFT % "http://json-schema.org/draft-03/schema#"),
    ("a draft by another scheme", '{"$schema": "https://json-schema.org/draft-07/schema#"}', '"$schema"', NO_DRAFT % "https://json-schema.org/draft-07/schema#"),
    ("a draft that is no text", '{"$schema": 7}', '"$schema"', "/$schema: a text is wanted"),
    ("a draft below the top", '{"items": {"$schema": "https://json-schema.org/draft/2020-12/schema"}}', '"$schema"', '/items/$schema: another "$schema" than that of the document is not understood'),
    ("const of draft-04", '{"$schema": "http://json-schema.org/draft-04/schema#", "items": {"const": 1}}', '"const"', '/items/const: "const" has no effect in draft-04'),
    ("required of draft 3", '{"properties": {"a": {"required": true}}}', '"required"', "/properties/a/required: a list of names is wanted"),
    ("a reference that is no text", '{"$ref": 1}', '"$ref"', "/$ref: a text is wanted"),
    ("reference to nothing", '{"$ref": "#/$defs/a"}', '"$ref"', '/$ref: nothing is at "#/$defs/a" in the document'),
    ("reference to itself", '{"$ref": "#"}', None, 'what is at "" stands for itself'),
    ("reference in a circle", '{"$ref": "#/$defs/a", "$defs": {"a": {"anyOf": [true, {"$ref": "#/$defs/a"}]}}}', None, 'what is at "/$defs/a" stands for itself'),
    ("no schema", "[]", None, "a schema is wanted: an object, true or false"),
    ("too many values", '{"examples": [%s0]}' % ("0, " * 30000), None, "more than 30000 values"),
]

# a schema that is read, before what in it a warning has its place, and the warning; or nothing
UNUSED, ELSEWHERE = ': the keyword "%s" is not known, and has no effect', ': "%s" is not looked up: any value may be there'
WARNED = [
    ("a keyword", '{"type": "object",\n "x-order": 1}', '"x-order"', "/x-order" + UNUSED % "x-order"),
    ("a keyword inside", '{"items": {"properties": {"a/b": {"optional": true}}}}', '"optional"', "/items/properties/a~1b/optional" + UNUSED % "optional"),
    ("a keyword that stands twice", '{"anyOf": [{"form": 1}, {"form": 2}]}', '"form"', "/anyOf/0/form" + UNUSED % "form"),
    ("two edits away", '{"propertys": {}}', '"propertys"', "/propertys" + UNUSED % "propertys"),
    ("one edit from a short keyword", '{"note": 1}', '"note"', "/note" + UNUSED % "note"),
    ("in a definition", '{"items": {"$ref": "#/$defs/a"}, "$defs": {"a": {"form": 1}}}', '"form"', "/$defs/a/form" + UNUSED % "form"),
    ("in a definition that nothing uses", '{"$defs": {"a": {"form": 1}}}', None, None),
    ("names of properties", '{"properties": {"form": true, "titel": true}, "patternProperties": {"form": {}}, "dependentSchemas": {"form": {}}}', None, None),
    ("values", '{"default": {"form": 1}, "enum": [{"form": 1}], "examples": [{"form": 1}]}', None, None),
    ("another document", '{"items": {"$ref": "other.json"}}', '"$ref"', "/items/$ref" + ELSEWHERE % "other.json"),
    ("a part of another document", '{"items": {"$ref": "other.json#/$defs/a"}}', '"$ref"', "/items/$ref" + ELSEWHERE % "other.json#/$defs/a"),
    ("a name", '{"items": {"$ref": "#a"}, "$defs": {"x": {"$anchor": "a"}}}', None, None),
    ("a name that no definition has", '{"items": {"$ref": "#a"}, "$defs": {"x": {"$anchor": "b"}}}', '"$ref"', "/items/$ref" + ELSEWHERE % "#a"),
    ("in a definition that a name stands for", '{"items": {"$ref": "#a"}, "$defs": {"x": {"$anchor": "a", "form": 1}}}', '"form"', "/$defs/x/form" + UNUSED % "form"),
    ("where something has an identifier", '{"items": {"$ref": "#/$defs/a"}, "$defs": {"a": {"$id": "a"}}}', '"$ref"', "/items/$ref" + ELSEWHERE % "#/$defs/a"),
    ("what OpenAPI adds", '{"type": "string", "nullable": true, "example": 1}', '"nullable"', "/nullable" + UNUSED % "nullable"),
]

# the keywords that are read, and need nothing of what stands under them
KEYWORDS = ("allOf", "not", "if", "then", "else", "prefixItems", "contains", "minContains", "maxContains", "patternProperties", "propertyNames", "dependentSchemas",
            "dependencies", "dependentRequired", "unevaluatedItems", "unevaluatedProperties", "additionalItems", "$anchor", "$dynamicRef", "$dynamicAnchor", "$recursiveRef",
            "$recursiveAnchor", "$vocabulary", "id", "contentSchema", "example", "default", "title", "deprecated")

# the templates of examples/ with a schema each, and what is said of them where they are refused
PERSON = {"$ref": "#/$defs/person", "$defs": {"person": {"type": "object", "required": ["name"], "properties": {
    "name": TEXT, "reports": {"type": "array", "items": {"$ref": "#/$defs/person"}}}}}}
EXAMPLES = [
    ("hello", of({"name": TEXT}), None),
    ("page", of({"site": TEXT, "title": TEXT, "articles": {"type": "array", "items": of({"title": TEXT, "text": TEXT})}}), None),
    ("report", of({"project": TEXT, "build": of({"number": WHOLE, "passed": {"type": "boolean"}, "tags": ITEMS, "skipped": ITEMS, "note": TEXT,
                                                 "seconds": {"type": "object", "additionalProperties": WHOLE}},
                                                ["number", "passed", "tags", "seconds", "skipped"])}), None),
    ("report", of({"project": TEXT, "build": of({"number": WHOLE, "passed": {"type": "boolean"}, "tags": ITEMS, "seconds": {"type": "object"}, "note": TEXT},
                                                ["number", "passed", "tags", "seconds"])}), '.skipped may be absent: not in "properties" of s:1'),
    ("service", of({"description": TEXT, "after": TEXT, "user": TEXT, "restart": {"enum": ["no", "on-failure", "always"]},
                    "paths": of({"home": TEXT, "program": TEXT}), "listen": of({"address": TEXT, "port": WHOLE})}), None),
    ("library", of({"app": TEXT, "version": TEXT, "registry": TEXT, "ports": {"type": "array", "items": of({"name": TEXT, "port": WHOLE, "protocol": TEXT}, ["name", "port"])}},
                   ["app", "version", "ports"]), None),
    ("tree", PERSON, None),
    ("nginx", of({"port": WHOLE, "hosts": ITEMS, "proxies": {"type": "object", "additionalProperties": of({"host": TEXT, "port": WHOLE})}, "root": TEXT}, ["hosts", "proxies"]), None),
    ("proxy", of({"sites": {"type": "object", "additionalProperties": of({
        "hosts": ITEMS, "port": WHOLE, "root": TEXT, "tls": of({"certificate": TEXT, "key": TEXT}),
        "backends": {"type": "array", "items": of({"host": TEXT, "port": WHOLE, "weight": WHOLE})}}, ["hosts"])}}), None),
    ("printed", of({"name": TEXT, "paid": {"type": "boolean"}, "days": WHOLE}), None),
]

# the templates of docs/COOKBOOK.md, by the name under which each is saved or as they stand there, with a schema each, the files of quotes
# that are read too, and more words; and what is said where one is refused. Without the files of quotes their templates are stops
MAP_OF_TEXTS = {"type": "object", "additionalProperties": TEXT}
SITE = of({"port": WHOLE, "hosts": ITEMS, "root": TEXT}, ["hosts", "root"])
DEPLOYMENT = of({"app": TEXT, "image": TEXT, "version": TEXT, "replicas": WHOLE, "environment": MAP_OF_TEXTS}, ["app", "image", "version"])
COOKBOOK = [
    ("deployment.tmpl", DEPLOYMENT, ["quotes.tmpl"], [], None),
    ("deployment.tmpl", {**DEPLOYMENT, "properties": {**DEPLOYMENT["properties"], "version": {"type": ["string", "integer"]}, "app": WHOLE}}, ["quotes.tmpl"], [],
     '"printf" may get what it refuses'),
    ("nginx.tmpl", of({"pid": TEXT, "sites": {"type": "array", "items": SITE}}), [], ["--stop", "nginx"], None),
    ("nginx.tmpl", of({"pid": TEXT, "sites": {"type": "array", "items": SITE}}), ["quotes.tmpl"], [], None),
    ("nginx.tmpl", of({"pid": TEXT, "sites": {"type": "array", "items": SITE}}), [], [], 'there is no template "nginx"'),
    ("app.tmpl", of({"description": TEXT, "greeting": TEXT, "title": TEXT}), [], ["--stop", "replace", "--stop", "systemd", "--stop", "systemd command"], None),
    ("{{range .hosts}}{{.}}; {{end}}", of({"hosts": ITEMS}), [], [], None),
    ("Hello, {{.GREETED}}!", of({"GREETED": TEXT}), [], [], None),
    ("Hello, {{.GREETED}}!", of({"GREETED": TEXT}, []), [], [], '.GREETED may be absent: not in "required" of s:1'),
    ("{{.port}} {{.tls.on}} {{.tls.versions}}", of({"port": WHOLE, "tls": of({"on": {"type": "boolean"}, "versions": ITEMS})}), [], [], None),
    ("listen {{.port}};", of({"port": WHOLE}), [], [], None),
    ('{{if gt .port 65535}}{{template "stop: a port is at most 65535"}}{{end}}port {{.port}}', of({"port": WHOLE}), [], [], None),
    ('{{range .rows}}{{.count}} at {{printf "%6s" .price}}; {{end}}', of({"rows": {"type": "array", "items": of({"price": TEXT, "count": WHOLE})}, "limit": TEXT}), [], [], None),
    ('{{range .rows}}{{.count}} at {{printf "%6s" .price}}; {{end}}', of({"rows": {"type": "array", "items": of({"price": {"type": ["string", "integer"]}, "count": WHOLE})}}), [], [],
     '"printf" may get what it refuses'),
    ("<h1>{{html .title}}</h1>", of({"title": TEXT}), [], [], None),
]

# copy loops over a text: what is done by the byte, and what stands instead of other parts of the loop
BEGINS = "{{if $is_new}}{{$from = $i}}{{$is_new = false}}{{end}}"
LAST = "{{if not $is_new}}{{slice $text $from}}{{end}}"


def loop(steps, start="{{$text := .}}{{$from := 0}}{{$is_new := false}}", byte="{{$byte := index $text $i}}", begins=BEGINS, last=LAST):
    """A template that calls a copy loop with a name."""
    return '{{define "q"}}%s<{{range $i := len $text}}%s%s%s{{end}}%s>{{end}}{{template "q" .name}}' % (start, byte, begins, steps, last)


WRITES = "{{if eq $byte 'a'}}{{slice $text $from $i}}A{{$is_new = true}}{{end}}"
LOOPS = [
    ("one byte", loop(WRITES), []),
    ("other names", loop(WRITES).replace("$text", "$s").replace("$from", "$at").replace("$is_new", "$cut").replace("$byte", "$b"), []),
    ("several ways", loop("{{if lt $byte 0x20}}{{slice $text $from $i}}{{$is_new = true}}{{if eq $byte 9}}\\t{{else if eq $byte 10}}\\n{{else}}{{printf \"\\\\x%02x\" $byte}}{{end}}"
                          "{{else if or (eq $byte '<' '>') (ge $byte 0x80)}}{{slice $text $from $i}}&#{{$byte}};{{$is_new = true}}{{end}}"), []),
    ("an if of nothing", loop("{{if eq $byte 0}}{{end}}"), []),
    ("begun anew first", loop("{{if eq $byte 'a'}}{{$is_new = true}}{{slice $text $from $i}}A{{end}}"), []),
    ("a stop", loop("{{if eq $byte 0}}{{template \"stop\"}}{{end}}"), ["--stop", "stop"]),
    ("a stop by its name", loop("{{if eq $byte 0}}{{template \"stop: a NUL\"}}{{end}}"), []),
]

# the templates of examples/quotes that are accepted for any string, by their files
QUOTES = {
    "quotes.tmpl": ("sh", "env", "sql", "csv", "json", "toml", "yaml", "nginx", "systemd", "systemd command", "attribute"),
    "texts.tmpl": ("upper", "lower"),
}

# calls of what is not there that are no stops: a name that is a stop's but for a letter, or that has the words later
NO_STOPS = ["stop", "stop:", "stop:x", "Stop: x", "a stop: x", " stop: x"]

# near these, each with data for which it fails, and the type of its name
NEAR_LOOPS = [
    ("a stop that is not named", loop("{{if eq $byte 0}}{{template \"stop\"}}{{end}}"), "\0", TEXT),
    ("one past the byte", loop("{{if eq $byte 'a'}}{{slice $text $from $i}}{{index $text 3}}{{$is_new = true}}{{end}}"), "a", TEXT),
    ("cut backwards", loop("{{if eq $byte 'b'}}{{slice $text $i $from}}B{{$is_new = true}}{{end}}"), "ab", TEXT),
    ("an else that fails", loop("{{if eq $byte 'a'}}{{slice $text $from $i}}A{{$is_new = true}}{{else}}{{index $text 9}}{{end}}"), "b", TEXT),
    ("a value that no number has", loop("{{if eq $byte 'a'}}{{slice $text $from $i}}{{printf \"%s\" $byte}}{{$is_new = true}}{{end}}"), "a", TEXT),
    ("a comparison with a text", loop("{{if eq $byte \"a\"}}{{slice $text $from $i}}A{{$is_new = true}}{{end}}"), "a", TEXT),
    ("a number", loop(WRITES), 7, {"type": ["string", "integer"]}),
    ("from one past the end", loop(WRITES, last="{{slice $text 1}}"), "", TEXT),
    ("what stands behind", loop(WRITES, last=LAST + "{{index $text 9}}"), "a", TEXT),
    ("an index where it began", loop(WRITES, begins=BEGINS + "{{index $text (print $i)}}"), "a", TEXT),
]

# a template and data, each of which is checked beside this schema, and how the lines begin that are told
BESIDE_SCHEMA = of({"a": TEXT})
BESIDE = [
    ("both are accepted", "{{len .a}}", {"a": "x"}, []),
    ("the template is refused", "{{len .b}}", {"a": "x"}, ["t:1:1: error: may fail: .b "]),
    ("the data is refused", "{{len .a}}", '{"a":', ["d:1:6: error: not JSON: "]),
    ("a number in the data is refused", "{{len .a}}", {"a": 1.5}, ["d:1:7: error: "]),
    ("both are refused", "{{len .b}}", '{"a":', ["t:1:1: error: may fail: .b ", "d:1:6: error: not JSON: "]),
    ("the data does not conform", "{{len .a}}", {"a": 7}, ['d:1:2: error: does not conform: .a: 7 is not of "type": "string" at s:1']),
    ("nor does it beside a template that is refused", "{{len .b}}", {"a": 7}, ["t:1:1: error: may fail: .b ", "d:1:2: error: does not conform: .a: 7 "]),
    ("nor does it beside a template that is not read", "{{b}}", {"a": 7}, ["t:1:1: error: action not understood: ", "d:1:2: error: does not conform: .a: 7 "]),
]

# data that is held to a schema: a title, the schema, the data, and what is said of the data and then of a line of the schema
PORT = of({"port": {"type": "integer", "minimum": 1, "maximum": 9}})
HELD = [
    ("all conforms", PORT, '{"port": 5}', []),
    ("below the minimum", PORT, '{"port":\n 0}', ['1:2: .port: 0 is below "minimum": 1']),
    ("above the maximum", PORT, '{"port": 10}', ['1:2: .port: 10 is above "maximum": 9']),
    ("of another type", PORT, '{"port": "5"}', ['1:2: .port: "5" is not of "type": "integer"']),
    ("a key that is missing", PORT, "{}", ['1:1: no "port", which is in "required"']),
    ("a key too many", PORT, '{"port": 5, "x": null}', ['1:13: .x: not in "properties", and "additionalProperties" is false']),
    ("another kind", PORT, "[]", ['1:1: [] is not of "type": "object"']),
    ("several", PORT, '{"port": 0, "x": 1}', ['1:13: .x: not in "properties", and "additionalProperties" is false', '1:2: .port: 0 is below "minimum": 1']),
    ("items", {"type": "array", "minItems": 2, "items": {"enum": ["a", "b"]}}, '["c"]',
     ['1:2: [0]: "c" is none of "enum": ["a","b"]', '1:1: ["c"] has fewer than "minItems": 2']),
    ("a reference", {"type": "array", "items": {"$ref": "#/$defs/x"}, "$defs": {"x": {"type": "string", "minLength": 2, "maxLength": 3}}}, '["ab", "a",\n "abcd"]',
     ['1:8: [1]: "a" is shorter than "minLength": 2', '2:2: [2]: "abcd" is longer than "maxLength": 3']),
    ("a name", {"items": {"$ref": "#x"}, "$defs": {"d": {"$anchor": "x", "type": "string"}}}, '["a", 1]', ['1:7: [1]: 1 is not of "type": "string"']),
    ("alternatives", {"anyOf": [{"type": "string"}, {"type": "integer", "minimum": 3}]}, "2", ['1:1: 2 conforms to none of "anyOf"']),
    ("one of them", {"oneOf": [{"type": "integer"}, {"minimum": 3}]}, "3", ['1:1: 3 conforms to more than one of "oneOf"']),
    ("a constant", of({"a": {"const": "x"}}), '{"a": "y"}', ['1:2: .a: "y" is not "const": "x"']),
    ("exclusive bounds", {"exclusiveMinimum": 1, "exclusiveMaximum": 1}, "1", ['1:1: 1 is not below "exclusiveMaximum": 1', '1:1: 1 is not above "exclusiveMinimum": 1']),
    ("an exclusive bound of draft-04", {**DRAFT_04, "minimum": 1, "exclusiveMinimum": True}, "1", ['1:1: 1 is below "minimum": 1']),
    ("no multiple", {"multipleOf": 3}, "4", ['1:1: 4 is no multiple of "multipleOf": 3']),
    ("an item twice", {"uniqueItems": True}, "[1, 1]", ['1:1: [1,1] has an item twice, against "uniqueItems": true']),
    ("what a pattern asks is not looked at", of({"a": {"type": "string", "pattern": "^x"}}), '{"a": "y"}', []),
    ("nor a format", of({"a": {"type": "string", "format": "email"}}), '{"a": "y"}', []),
    ("beside a pattern", of({"a": {"type": "string", "pattern": "^x"}, "b": TEXT}), '{"a": "y", "b": 1}', ['1:12: .b: 1 is not of "type": "string"']),
    ("an alternative with a pattern", {"anyOf": [{"type": "string", "pattern": "^x"}, {"type": "null"}]}, '"y"', []),
    ("a key that may not be there", {"properties": {"a": False}}, '{"a": 1}', ["1:2: .a: the schema there allows no value"]),
    ("another list than the constant", {"const": [1, 2]}, "[1]", ['1:1: [1] is not "const": [1,2]']),
    ("what is not allowed", {"not": {"type": "integer"}}, "3", ['1:1: 3 conforms to "not": {"type":"integer"}']),
    ("a then", {"if": {"type": "integer"}, "then": False}, "3", ['1:1: 3 breaks "if": {"type":"integer"}']),
    ("an else", {"if": {"type": "string"}, "then": False, "else": {"minimum": 4}}, "3", ['1:1: 3 breaks "if": {"type":"string"}']),
    ("a then that is met", {"if": {"type": "integer"}, "then": {"minimum": 3}, "else": False}, "3", []),
    ("no item of a kind", {"contains": {"type": "integer"}}, '["a"]', ['1:1: ["a"] has no item of "contains": {"type":"integer"}']),
    ("a first item", {"prefixItems": [{"type": "string"}]}, "[1]", ['1:1: [1] breaks "prefixItems": [{"type":"string"}]']),
    ("the name of a key", {"propertyNames": {"maxLength": 2}}, '{"abc": 1}', ['1:1: {"abc":1} breaks "propertyNames": {"maxLength":2}']),
    ("the value of a key that a regular expression matches", {"patternProperties": {"^a": {"type": "integer"}}}, '{"a": "b"}',
     ['1:1: {"a":"b"} breaks "patternProperties": {"^a":{"type":"integer"}}']),
    ("of another type than what is not allowed", {"not": {"pattern": "^x", "type": "string"}}, "3", []),
    ("one alternative, where a second is not decided", {"oneOf": [{"type": "string"}, {"pattern": "^x"}]}, '"y"', []),
    ("none, beside a reference of draft-07", {**DRAFT_07, "anyOf": [{"$ref": "#/definitions/a", "title": "A"}], "definitions": {"a": {"type": "string"}}}, "3",
     ['1:1: 3 conforms to none of "anyOf"']),
]
# .. and data without such a place, which does not conform, or of which that is not decided
UNSEEN = [
    ("a fraction", {"minimum": 1.5}, "1"),
    ("properties that are not evaluated", {"properties": {"a": {}}, "unevaluatedProperties": False}, '{"a": 1}'),
    ("a dynamic reference", {"$dynamicRef": "#node"}, "1"),
    ("a reference that is not looked up", {"$ref": "other.json"}, "1"),
    ("how many items are of a kind", {"contains": {"type": "integer"}, "minContains": 0}, '["a"]'),
    ("a regular expression that is not followed", {"patternProperties": {"(?=a)": {"type": "integer"}}}, '{"a": "b"}'),
    ("another key, beside regular expressions", {"patternProperties": {"^x": True}, "additionalProperties": False}, '{"a": 1}'),
    ("a keyword that the draft does not know", {**DRAFT_06, "if": True, "then": False}, "3"),
]

# schemas that are as large as may be, or lead to much work, with a template each, more words, and what is said; each is checked within SECONDS of a processor,
# on a stack of the machine of STACK bytes
SECONDS = 20
STACK = 512 << 10
MANY = [f"name{number}" for number in range(9_900)]
WORDS = tuple({"const": name} for name in MANY)
WIDE = {"type": "object", "properties": {name: TEXT for name in MANY[:3_200]}, "required": MANY[:3_200], "additionalProperties": False}
ASKS = "".join("{{if .%s}}{{len .%s}}{{else}}{{range .%s}}{{end}}{{end}}" % (name, name, name) for name in ("x", "y", "z"))
LISTS = of({"x": ITEMS, "y": ITEMS, "z": ITEMS})
DOUBLED = {**{f"d{number}": {"anyOf": [{"$ref": f"#/$defs/d{number + 1}"}] * 2} for number in range(300)}, "d300": LISTS}
# definitions that lead round in a circle, by the items of a list, or by what may be null
def circle(count, after):
    """This many definitions, each with the next one after a name, and the first after the last."""
    names = {f"d{number}": of({"name": TEXT, "next": after(f"#/$defs/d{(number + 1) % count}")}) for number in range(count)}
    return {"$ref": "#/$defs/d0", "$defs": names}


LISTS_ROUND = circle(300, lambda path: {"type": "array", "items": {"$ref": path}})
NULLS_ROUND = circle(100, lambda path: {"anyOf": [{"$ref": path}, {"type": "null"}]})
WALKS = ['{{define "w"}}{{.name}}{{%s .next}}{{template "w" .}}{{end}}{{end}}{{template "w" .}}' % word for word in ("range", "with")]
HOSTILE = [
    ("9,900 names in one required", {"type": "object", "required": MANY, "properties": {"x": ITEMS, "y": ITEMS, "z": ITEMS}}, ASKS, DEFAULT, None),
    ("3,200 properties", {**WIDE, "properties": {**WIDE["properties"], **LISTS["properties"]}, "required": [*WIDE["required"], "x", "y", "z"]}, ASKS, [], None),
    ("5,000 names in one required", {"type": "object", "required": MANY[:5_000]}, "{{if .name7}}x{{end}}", DEFAULT, None),
    ("1,500 alternatives", {"anyOf": list(WORDS[:1_500])}, "{{if .}}{{print .}}{{end}}", [], None),
    ("1,500 alternatives beside a type", {"type": "string", "anyOf": list(WORDS[:1_500])}, "{{if .}}{{print .}}{{end}}", [], None),
    ("1,500 alternatives beside a type that none has", {"type": "object", "oneOf": list(WORDS[:1_500])}, "{{.x}}", [], None),
    ("1,500 alternatives of a definition", {"$ref": "#/$defs/a", "$defs": {"a": {"anyOf": list(WORDS[:1_500])}}}, "x", [], "more than 1000 alternatives of one definition"),
    ("5,000 alternatives", {"anyOf": [True] * 5_000}, "{{len .}}", [], "more than 1500 alternatives"),
    ("5,000 alternatives beside a type", {"type": "string", "oneOf": [True] * 5_000}, "{{len .}}", [], "more than 1500 alternatives"),
    ("5,000 alternatives in two lists", {"anyOf": [{"anyOf": [True] * 1_000}] * 5}, "{{len .}}", [], "more than 1500 alternatives"),
    ("5,000 alternatives that are not looked at", {"type": "object", "properties": {}, "anyOf": [True] * 5_000}, "x", [], None),
    ("1,000 alternatives and 1,000 others in one allOf", {"allOf": [{"anyOf": [of({name: TEXT}) for name in MANY[start:start + 1_000]]} for start in (0, 1_000)]},
     "{{if .}}{{print .}}{{end}}", [], None),
    ("100 alternatives and 100 others in one allOf", {"allOf": [{"anyOf": [of({name: TEXT}) for name in MANY[start:start + 100]]} for start in (0, 1_000)]},
     "{{if .}}{{print .}}{{end}}", [], None),
    ("12 parts of two alternatives each", {"allOf": [{"anyOf": [of({one: TEXT}), of({other: TEXT})]} for one, other in zip(MANY[:12], MANY[12:24])]},
     "{{if .}}{{print .}}{{end}}", [], None),
    ("32 alternatives beside 3,000 properties", {"anyOf": [{"required": [name]} for name in MANY[:32]], **of({name: TEXT for name in MANY[:3_000]}, [])}, "{{.name3}}", DEFAULT, None),
    ("5,000 types", {"type": ["string"] * 5_000}, "{{len .}}", [], None),
    ("9,900 constants", {"enum": MANY}, "{{len .}}", [], None),
    ("9,900 constants, none of which is a map", {"enum": MANY}, "{{.x}}", DEFAULT, ".x of a text, which may come here"),
    ("500 properties in two orders", {"anyOf": [{**WIDE, "properties": {**{name: TEXT for name in names}, **LISTS["properties"]}, "required": [*names[:250], "x", "y", "z"]}
                                                  for names in (MANY[:500], MANY[499::-1])]}, ASKS, [], None),
    ("1,000 maps in a map, each of its own form", of({name: of({name: TEXT}) for name in MANY[:1_000]}), "{{range .}}{{if .}}x{{end}}{{end}}", [], None),
    ("1,100 alternatives", {"anyOf": [of({name: TEXT}) for name in MANY[:1_100]]}, "{{if .}}{{print .}}{{end}}", [], None),
    ("names that each stand for two others", {"$ref": "#/$defs/d0", "$defs": DOUBLED}, ASKS, [], "more than 1000 alternatives of one definition"),
    ("names beside a large rest", {"type": "object", "required": MANY[:4_900], "additionalProperties": of({name: TEXT for name in MANY[:1_600]})}, "{{if .name7}}x{{end}}", [], "more than 30000 values"),
    ("500 templates that call one another", of({"x": TEXT}), "".join('{{define "t%d"}}{{.x}}{{template "t%d" .}}{{end}}' % (number, number + 1) for number in range(500))
     + '{{define "t500"}}{{len .x}}{{end}}{{template "t0" .}}', [], None),
    ("300 definitions in a circle of lists", LISTS_ROUND, WALKS[0], [], None),
    ("100 definitions in a circle of what may be null", NULLS_ROUND, WALKS[1], [], None),
    ("5,000 lines", of({"x": ITEMS, "y": ITEMS, "z": ITEMS}), "{{range .x}}{{len .}}{{end}}{{if .y}}{{len .z}}{{end}}\n" * 5_000, [], None),
    ("5,000 lines over 150 fields", of({name: ITEMS for name in MANY[:150]}),
     "".join("{{range .name%d}}{{len .}}{{end}}{{if .name%d}}{{len .name%d}}{{end}}\n" % (line % 150, line % 149, line % 149) for line in range(5_000)), [], None),
]

# schemas and templates of few bytes that lead to much work in a walk that is repeated, or that are more than a check goes down to: each is checked
# within SOON of a processor, and what takes more work than there is for it is refused as too complex
SOON = 8  # seconds; a program without proofs takes half of it on a quiet processor
COMPLEX = "it is too complex for this check"
FORMS = {count: {"anyOf": [of({name: TEXT}, []) for name in MANY[:count]]} for count in (65, 80, 600)}
INSIDE = "".join("{{$x%d := 1}}{{range $.l}}" % number for number in range(20)) + "".join("{{$x%d = $.l}}{{end}}" % number for number in reversed(range(20)))
ALIASES = "".join("{{$x%d := $.%s}}" % (number, name) for number, name in enumerate(MANY[:1_600]))
BOUNDED = [
    ("a list of 65 forms", {"type": "array", "items": FORMS[65]}, "{{range .}}{{if .name1}}x{{end}}{{end}}", DEFAULT, None),
    ("a list of 600 forms", {"type": "array", "items": FORMS[600]}, "{{range .}}{{if .}}x{{end}}{{end}}", [], None),
    ("80 forms beside what is asked for", of({"u": FORMS[80], "l": ITEMS}), "{{range .l}}{{if $.l}}{{.}}{{end}}{{end}}" * 20, [], None),
    ("600 forms beside what is asked for", of({"u": FORMS[600], "l": ITEMS}), "{{range .l}}{{if $.l}}{{.}}{{end}}{{end}}" * 20, [], None),
    ("20 ranges inside one another, each with a variable", of({"l": ITEMS}), INSIDE, [], COMPLEX),
    ("500 controls inside one another", {}, "{{if .}}" * 500 + "{{%s1%s}}" % ("(" * 100, ")" * 100) + "{{end}}" * 500, [], COMPLEX),
    ("1,600 aliases and 1,600 guards", of({name: ITEMS for name in MANY[:1_600]}),
     ALIASES + "".join("{{if $x%d}}x{{end}}" % number for number in range(1_600)), [], COMPLEX),
    ("10,000 variables", of({"l": ITEMS}), "".join("{{$x%d := $.l}}" % number for number in range(10_000)), [], COMPLEX),
    ("10,000 calls in a range", of({"l": ITEMS}), "{{range .l}}" + "".join('{{template "t%d" .}}' % number for number in range(10_000)) + "{{end}}"
     + "".join('{{define "t%d"}}{{.}}{{end}}' % number for number in range(10_000)), [], None),
    ("10,000 templates that call one another in ranges", of({"l": ITEMS}),
     "".join('{{define "t%d"}}{{range $.l}}{{template "t%d" $}}{{end}}{{end}}' % (number, number + 1) for number in range(10_000))
     + '{{define "t10000"}}{{len .l}}{{end}}{{template "t0" .}}', [], None),
    ("13,000 templates that call one another", of({"l": ITEMS}), "".join('{{define "t%d"}}{{template "t%d" .}}{{end}}' % (number, number + 1) for number in range(13_000))
     + '{{define "t13000"}}{{len .l}}{{end}}{{template "t0" .}}', [], COMPLEX),
    ("10,000 guards beside 10,000 variables of a few names", of({"a": TEXT}), "".join("{{$x%d := .a}}" % (number % 300) for number in range(10_000)) + "{{if .a}}x{{end}}" * 10_000,
     [], COMPLEX),
    ("10,000 assignments in a range", of({"l": ITEMS}), "".join("{{$x%d := 1}}" % number for number in range(100)) + "{{range .l}}"
     + "".join("{{$x%d = $x%d}}" % (number % 100, (number + 1) % 100) for number in range(10_000)) + "{{end}}", [], None),
    ("5,000 operands of or", of({"a": TEXT}), "{{or" + " $.a" * 5_000 + "}}", [], COMPLEX),
]
