"""Rows of tmpl-check --writes, worked out by hand. An output is refused at the first byte that no text of the format has there."""

TEXT = {"type": "string"}


def of(**properties):
    return {"type": "object", "required": list(properties), "properties": properties}


NAMED, LISTED = of(a=TEXT), of(l={"type": "array", "items": TEXT})
COUNTED = of(l={"type": "array", "items": {"type": "integer"}})
LINES = of(rows={"type": "array", "items": of(a=TEXT, b={"type": "integer"})})

# a title, the format, a template, its data, and the place of the action and that in the output; none where the output is of the format
OVER_DATA = [
    ("a number", "json", '{"a": {{.}}}', "5", None),
    ("a string without quotes", "json", '{"a": {{.}}}', '"x"', ("1:7", "1:7")),
    ("a comma after the last item", "json", "[{{range .}}{{.}},{{end}}\n]", "[1, 2]", ("1:26", "2:1")),
    ("a brace that is not closed", "json", '{"a": {{len .}}', "[]", ("1:7", "1:8")),
    ("a second value", "json", "{{.}}\n{{.}}", "1", ("2:1", "2:1")),
    ("no value", "json", "", "1", ("1:1", "1:1")),
    ("a text of two lines", "json", '[\n  1,\n  {{print "x"}}]', "1", ("3:3", "3:3")),
    ("an action after others on its line", "json", 'é{{.}}', "1", ("1:1", "1:1")),
    ("the third of three actions on a line", "json", '[{{.}}, {{.}}, {{print "x"}}]', "1", ("1:16", "1:8")),
    ("in a turn of a range on one line", "json", '[{{range $i, $e := .}}{{if $i}}, {{end}}{{$e}}{{end}}]', '[1, "x"]', ("1:41", "1:5")),
    ("in a template that is called twice", "json", '{{define "w"}}{{.}}{{end}}[{{template "w" 1}}, {{template "w" "x"}}]', "1", ("1:15", "1:5")),
    ("what an else branch writes", "json", '{{if false}}1{{else if .}}{{print "x"}}{{end}}', "1", ("1:27", "1:1")),
    ("after a marker that trims", "json", "[1,\n  {{- print \"x\" -}}  \n]", "1", ("2:3", "1:4")),
    ("lines", "jsonl", "{{range .}}{{.}}\n{{end}}", "[1, 2]", None),
    ("a line of two values", "jsonl", "{{range .}}{{.}} {{.}}\n{{end}}", "[1, 2]", ("1:18", "1:3")),
    ("a value that needs no quotes", "env", "A={{.}}\n", '"x.y"', None),
    ("a value with a space", "env", "A={{.}}\n", '"x y"', ("1:3", "1:4")),
    ("a value of two lines", "env", "A={{.}}\n", '"x\\ny"', ("1:8", "2:2")),
    ("two fields", "csv:2", "{{range .}}{{.}},{{len .}}\n{{end}}", '["a", "b"]', None),
    ("a comma in a field", "csv:2", "{{range .}}{{.}},{{len .}}\n{{end}}", '["a,b"]', ("1:17", "1:4")),
    ("a word that readers take for different things", "yaml", "a: {{.}}\n", '"no"', ("1:9", "1:6")),
    ("a quoted word", "yaml", 'a: {{printf "%q" .}}\n', '"no"', None),
    ("a colon in a plain scalar", "yaml", "a: {{.}}\n", '"b: c"', ("1:4", "1:6")),
    ("an item at a column that is not open", "yaml", "- a\n{{range .}} - {{.}}\n{{end}}", '["b"]', ("2:12", "2:2")),
    ("a manifest", "yaml", "---\nkind: List\nitems:\n{{range .}}- name: {{.}}\n  port: 80\n{{end}}", '["a", "b"]', None),
    ("lines with a match", "lines:^[a-z]+$", "{{range .}}{{.}}\n{{end}}", '["a", "bc"]', None),
    ("a line without a match", "lines:^[a-z]+$", "{{range .}}{{.}}\n{{end}}", '["a", "b c"]', ("1:12", "2:1")),
    ("three fields", "csv:3", "{{range .}}{{.}},{{len .}},\n{{end}}", '["a"]', None),
]

# a title, the format, a schema, a template with the templates that quote, and whether the output can break the format
OVER_SCHEMA = [
    ("a string in quotes alone", "json", NAMED, '{"a": "{{.a}}"}', True),
    ("a quoted string", "json", NAMED, '{"a": {{template "json" .a}}}', False),
    ("a comma after each item", "json", COUNTED, "[{{range .l}}{{.}},{{end}}]", True),
    ("a comma between items", "json", COUNTED, "[{{range $i, $e := .l}}{{if $i}},{{end}}{{$e}}{{end}}]", False),
    ("a comma before all but the first", "json", LISTED, '[{{range $i, $e := .l}}{{if $i}},{{end}}{{template "json" $e}}{{end}}]', False),
    ("a key that a value opens", "json", NAMED, '{"{{.a}}": 1}', True),
    ("a value as a shell takes it", "env", NAMED, "A={{.a}}\n", True),
    ("a quoted value", "env", NAMED, 'A={{template "env" .a}}\n', False),
    ("fields as they are", "csv:2", LINES, "{{range .rows}}{{.a}},{{.b}}\n{{end}}", True),
    ("a quoted field", "csv:2", LINES, '{{range .rows}}{{template "csv" .a}},{{.b}}\n{{end}}', False),
    ("a column too few", "csv:3", LINES, '{{range .rows}}{{template "csv" .a}},{{.b}}\n{{end}}', True),
    ("a line of a string", "jsonl", LISTED, "{{range .l}}{{.}}\n{{end}}", True),
    ("a string as a plain scalar", "yaml", NAMED, "a: {{.a}}\n", True),
    ("a string in quotes of YAML", "yaml", NAMED, 'a: {{template "yaml" .a}}\n', False),
    ("a string as a line", "lines:^[a-z]*$", NAMED, "{{.a}}\n", True),
    ("a count as a line", "lines:^[0-9]+$", LISTED, "{{range .l}}{{len .}}\n{{end}}", False),
    ("a line of a quoted string", "jsonl", LISTED, '{{range .l}}{{template "json" .}}\n{{end}}', False),
]
