"""Files with what is wrong in them, worked out by hand: a title, the file, and the lines of tmpl-check without its name."""
UNREADABLE = "error: unclosed or unreadable action: "
NOT_UNDERSTOOD = "error: action not understood: "
OUT_OF_PLACE = "error: out of place: "
UNDECLARED = "error: undeclared variable: "
OPEN = "error: file ends inside a control: "
TOO_MANY = "1:1: error: too many errors: at least %d more are not reported"
PIPED = ", and its lines with the indentation that they need: a template can't be piped"
END = '"end" closes nothing: no if, with, range, define or block is open'



def undeclared(name):
    """What is said of a variable that is not declared."""
    return f'variable "${name}" is not declared: write {{{{${name} := VALUE}}}} before it, in the same part or around it'


ROWS = [
    ("nothing wrong", "{{if .x}}{{.y}}{{end}}", []),
    ("a thousand errors", "{{f}}" * 1000, [f'1:{1 + 5 * at}: {NOT_UNDERSTOOD}no function "f": write .f' for at in range(1000)]),
    ("more than a thousand", "{{f}}" * 1003, [f'1:{1 + 5 * at}: {NOT_UNDERSTOOD}no function "f": write .f' for at in range(1000)] + [TOO_MANY % 3]),
    ("more than a thousand actions that can't be read", "{{\n" * 1005,
     [f'{at}:1: {UNREADABLE}"{{{{" inside an action: is "}}}}" missing before it?' for at in range(1, 1001)] + [TOO_MANY % 5]),
    ("more than a thousand errors, and an action that can't be read", "{{f}}" * 1003 + "{{",
     [f'1:{1 + 5 * at}: {NOT_UNDERSTOOD}no function "f": write .f' for at in range(1000)] + [TOO_MANY % 4]),
    ("more than a thousand warnings", "}}{{.}}" * 1002, [f'1:{1 + 7 * at}: warning: "}}}}" closes no action: it is text' for at in range(1000)]
     + ["1:1: warning: such warnings that are left out: 2"]),
    ("more than a thousand calls of a template that is not there", '{{template "x"}}' * 1001,
     [f'1:{1 + 16 * at}: warning: no file defines the template "x"' for at in range(1000)] + ["1:1: warning: such warnings that are left out: 1"]),
    # as people write them who come from other tools
    ("a name without its dot", "{{name}}", ["1:1: " + NOT_UNDERSTOOD + 'no function "name": write .name']),
    ("arithmetic", "{{.n | add 1}}", ["1:1: " + NOT_UNDERSTOOD + 'no function "add": there is no arithmetic: compute it in the data']),
    ("a comparison", '{{if .name == "Ada"}}x{{end}}', ["1:1: " + NOT_UNDERSTOOD + '"==" is no operand: write eq .name "Ada"']),
    ("a fraction", "{{1.5}}", ["1:1: " + NOT_UNDERSTOOD + "number 1.5 is not whole"]),
    ("an include", '{{include "x" . | nindent 4}}', ["1:1: " + NOT_UNDERSTOOD + 'no function "include": write {{template "name" .}}' + PIPED]),
    ("a value after if without its dot", "{{if name}}x{{end}}", ["1:1: " + NOT_UNDERSTOOD + 'no function "name": write .name']),
    ("a value before a bar without its dot", "{{name | html}}", ["1:1: " + NOT_UNDERSTOOD + 'no function "name": write .name']),
    ("a field of a name without its dot", "{{user.name}}", ["1:1: " + NOT_UNDERSTOOD + 'no function "user": write .user.name']),
    ("an expression of GitHub Actions", "${{ matrix.os }}", ["1:2: " + NOT_UNDERSTOOD
        + 'no function "matrix": to keep an expression of GitHub Actions write {{"${{ matrix.os }}"}}']),
    ("a variable without its dollar", "{{x := .n}}", ["1:1: " + NOT_UNDERSTOOD + 'no function "x": a variable begins with "$": write $x']),
    ("quotes that are not straight", "{{“Ada”}}", ["1:1: " + NOT_UNDERSTOOD
        + 'no function "“Ada”": a string stands between straight quotes: write "Ada"']),
    ("a string in single quotes", "{{'Ada'}}", ["1:1: " + NOT_UNDERSTOOD
        + "'Ada' is no character: a string stands in double quotes: write \"Ada\""]),
    ("a string between a straight quote and a curly one", "{{\"Ada\u201d}}", ["1:1: " + UNREADABLE
        + 'a string stands between straight quotes, as "Ada"']),
    ("a comment of HTML", "{{!-- c --}}", ["1:1: " + UNREADABLE + 'a comment stands between "{{/*" and "*/}}"']),
    ("an assignment without a declaration", "{{$y = 3}}", ["1:1: " + UNDECLARED + undeclared("y")]),
    ("two letters exchanged", '{{prinft "%d" .n}}', ["1:1: " + NOT_UNDERSTOOD + 'no function "prinft": write printf']),
    ("a test of a list", '{{if has "a" .x}}x{{end}}', ["1:1: " + NOT_UNDERSTOOD + 'no function "has": write '
        '{{range .x}}{{if eq . "a"}}{{$found = true}}{{end}}{{end}} after {{$found := false}}']),
    ("a message of one's own", '{{fail "no"}}', ["1:1: " + NOT_UNDERSTOOD
        + 'no function "fail": write {{template "stop: message"}}, and the error line has its name']),
    ("a left trim marker without its space", "{{-.name}}", ["1:1: " + UNREADABLE + 'a trim marker has a space after it: write "{{- "']),
    ("a right trim marker without its space", "{{.name-}}", ["1:1: " + UNREADABLE + 'a trim marker has a space before it: write " -}}"']),
    ("a comment after a space", "{{ /* c */ }}", ["1:1: " + UNREADABLE + 'a comment begins right after its "{{": write {{/* .. */}}']),
    ("one brace at the end", "{{.name }", ["1:1: " + UNREADABLE + 'unexpected "}": an action ends with "}}"']),
    ("an index as a field", "{{.s.0}}", ["1:1: " + NOT_UNDERSTOOD + 'no field ".0": write index .s 0']),
    ("a default", '{{.x | default "d"}}', ["1:1: " + NOT_UNDERSTOOD + 'no function "default": write or (index . "x") "d"']),
    ("or as an operator", "{{if .a || .b}}x{{end}}", ["1:1: " + NOT_UNDERSTOOD + '"||" is no operand: write or .a .b']),
    ("and as an operator", "{{if .a && .b}}x{{end}}", ["1:1: " + UNREADABLE + '"&&" is no operand: write and .a .b']),
    ("words for operands", "{{if tls && !http2}}x{{end}}", ["1:1: " + UNREADABLE + '"&&" is no operand: write and .tls (not .http2)']),
    ("not as an operator", "{{if !.a}}x{{end}}", ["1:1: " + UNREADABLE + 'unexpected "!": write not .a']),
    ("not equal", '{{if .a != "b"}}x{{end}}', ["1:1: " + UNREADABLE + '"!=" is no operand: write ne .a "b"']),
    ("less", "{{if .n<3}}x{{end}}", ["1:1: " + UNREADABLE + '"<" is no operand: write lt .n 3']),
    ("at least", "{{if $.n >= 3}}x{{end}}", ["1:1: " + UNREADABLE + '">=" is no operand: write ge $.n 3']),
    ("brackets", "{{.list[0]}}", ["1:1: " + UNREADABLE + 'unexpected "[": write index .list 0']),
    ("brackets with a key", '{{$.a.b["k"]}}', ["1:1: " + UNREADABLE + 'unexpected "[": write index $.a.b "k"']),
    ("brackets of another kind", "{{.list['k']}}", ["1:1: " + UNREADABLE + 'unexpected "[": write index, as in index .list 0']),
    ("brackets alone", "{{[1, 2]}}", ["1:1: " + UNREADABLE + 'unexpected "[": write index, as in index .list 0']),
    ("a partial template", "{{> part}}", ["1:1: " + UNREADABLE + '">" begins no action: write {{template "part" .}}']),
    ("a range of another tool", "{{range $x in .xs}}{{end}}", ["1:1: " + NOT_UNDERSTOOD + 'no function "in": write {{range .list}}; to ask for a member put a boolean into the data']),
    ("a key with a dash", "{{.a.b-c}}", ["1:1: " + UNREADABLE + 'unexpected "-": write index .a "b-c"']),
    ("a key with a dash alone", "{{.app-name}}", ["1:1: " + UNREADABLE + 'unexpected "-": write index . "app-name"']),
    ("a difference", "{{.a - .b}}", ["1:1: " + UNREADABLE + 'unexpected "-": there is no arithmetic; compute it in the data']),
    ("an elif", "{{if .x}}a{{elif .y}}b{{end}}", ["1:11: " + NOT_UNDERSTOOD + 'no function "elif": write {{else if P}}']),
    ("a for", "{{for x in .xs}}{{.}}{{end}}", ["1:1: " + NOT_UNDERSTOOD + 'no function "for": write {{range .list}}']),
    ("an endif", "{{if .x}}a{{endif}}", ["1:11: " + NOT_UNDERSTOOD + 'no function "endif": write {{end}}']),
    ("a part of Handlebars", "{{#if x}}a{{/if}}", [
        "1:1: " + UNREADABLE + '"#if" begins no action: a part begins with if, with or range and ends with end',
        "1:11: " + UNREADABLE + '"/if" begins no action: a part begins with if, with or range and ends with end']),
    ("a name of a template without quotes", "{{template page .}}", ["1:1: " + NOT_UNDERSTOOD + 'no function "page": write "page"',
        ]),
    ("a slip", "{{rnage .x}}{{.}}{{end}}", ["1:1: " + NOT_UNDERSTOOD + 'no function "rnage": write range', "1:18: " + OUT_OF_PLACE + END]),
    ("an unless", "{{unless .x}}a{{else}}b{{end}}", ["1:1: " + NOT_UNDERSTOOD + 'no function "unless": write {{if not .x}}']),
    ("an each", "{{each .xs}}{{.}}{{break}}{{end}}", ["1:1: " + NOT_UNDERSTOOD + 'no function "each": write {{range .list}}']),
    ("a function of a module", "{{strings.ToUpper .x}}", ["1:1: " + NOT_UNDERSTOOD
        + 'no function "strings": write a template of examples/quotes, as {{template "upper" .x}}']),
    ("another slip", "{{lenght .x}}", ["1:1: " + NOT_UNDERSTOOD + 'no function "lenght": write len .x']),
    # each kind of token
    ("no token", "{{ }}", ["1:1: " + NOT_UNDERSTOOD + "the action is empty"]),
    ("a number that is none", "{{08}}", ["1:1: " + NOT_UNDERSTOOD + "number 08 is out of range or has an 8 or 9 after a first 0"]),
    ("a number with letters", "{{1x}}", ["1:1: " + NOT_UNDERSTOOD + "1x is no integer"]),
    ("a character of two", "{{'ab'}}", ["1:1: " + NOT_UNDERSTOOD
        + "'ab' is no character: a string stands in double quotes: write \"ab\""]),
    ("a dot after a bar", "{{.x | .}}", ["1:1: " + NOT_UNDERSTOOD + '"." takes no value, so it may not stand after "|"']),
    ("a text after a bar", '{{.x | "a"}}', ["1:1: " + NOT_UNDERSTOOD + '""a"" takes no value, so it may not stand after "|"']),
    ("a bar with nothing after it", "{{.x |}}", ["1:1: " + NOT_UNDERSTOOD + '"|" stands between two commands']),
    ("a comma", "{{print .a, .b}}", ["1:1: " + NOT_UNDERSTOOD + 'unexpected ","']),
    ("an assignment to a field", "{{.x = 1}}", ["1:1: " + NOT_UNDERSTOOD + 'unexpected "="']),
    ("a parenthesis too few", "{{print (len .x}}", ["1:1: " + NOT_UNDERSTOOD + '"(" is not closed']),
    ("a parenthesis too many", "{{print len .x)}}", ["1:1: " + NOT_UNDERSTOOD + '")" closes no "("']),
    ("texts without a space", '{{print "a""b"}}', ["1:1: " + NOT_UNDERSTOOD + 'a space is wanted before ""b""']),
    ("a keyword inside", "{{print if}}", ["1:1: " + NOT_UNDERSTOOD + '"if" stands first in an action of its own']),
    ("an if with no value", "{{if}}x{{end}}", ["1:1: " + NOT_UNDERSTOOD + 'after "if" stands a value']),
    ("an end with more", "{{if .x}}x{{end if}}", ["1:11: " + NOT_UNDERSTOOD + '"end" stands alone: write {{end}}']),
    ("an end with a value", "{{if .x}}x{{end .x}}", ["1:11: " + NOT_UNDERSTOOD + '"end" stands alone']),
    ("an else with a value", "{{if .x}}x{{else .x}}y{{end}}",
     ["1:11: " + NOT_UNDERSTOOD + 'after "else" stands nothing, or "if" or "with" and a value']),
    ("a text that is not closed", '{{print "a}}', ["1:1: " + UNREADABLE
        + "a text in quotes is not closed in its line; one of several lines stands in backquotes"]),
    ("an action that is not closed", "{{.x", ["1:1: " + UNREADABLE + '"{{" is not closed by "}}"']),
    ("an action inside another", "{{.x {{.y}}", ["1:1: " + UNREADABLE + '"{{" inside an action: is "}}" missing before it?']),
    ("a comment that is not closed", "{{/* x }}", ["1:1: " + UNREADABLE + 'a comment ends with "*/}}", or with "*/", a space and "-}}"']),
    ("a long name", "{{" + "n" * 100 + "}}", ["1:1: " + NOT_UNDERSTOOD + f'no function "{80 * "n"}..": write .{80 * "n"}..']),
    # each reason
    ("an end of nothing", "{{end}}", ["1:1: " + OUT_OF_PLACE + END]),
    ("an else of nothing", "{{else}}", ["1:1: " + OUT_OF_PLACE + '"else" belongs to no if, with or range']),
    ("a second else", "{{if .x}}\n{{else}}{{else}}{{end}}", ["2:9: " + OUT_OF_PLACE
        + 'a second "else": a part has one, which comes last: "if" of line 1 is open']),
    ("an else if after the else", "{{if .x}}a{{else}}b{{else if .y}}c{{end}}", ["1:20: " + OUT_OF_PLACE
        + 'a second "else": a part has one, which comes last: "if" of line 1 is open']),
    ("an else if in a with", "{{with .x}}a{{else if .y}}b{{end}}", ["1:13: " + OUT_OF_PLACE
        + '"else if" stands in an if alone: write {{else}}{{if P}}..{{end}}: "with" of line 1 is open']),
    ("an else with in a range", "{{range .x}}a{{else with .y}}b{{end}}", ["1:14: " + OUT_OF_PLACE
        + '"else with" stands in a with alone: write {{else}}{{with P}}..{{end}}: "range" of line 1 is open']),
    ("a break in no range", "{{if .x}}{{break}}{{end}}", ["1:10: " + OUT_OF_PLACE + "break and continue stand in the body of a range"]),
    ("a define inside", '{{if .x}}{{define "t"}}a{{end}}{{end}}', ["1:10: " + OUT_OF_PLACE
        + 'a define stands in no other part: "if" of line 1 is open']),
    ("a variable", "{{$q}}", ["1:1: " + UNDECLARED + undeclared("q")]),
    ("an if that is open", "a\n{{if .x}}\nb\n", ["4:1: " + OPEN + '"if" of line 2 is open at the end of the file']),
    ("two that are open", "{{range .x}}{{with .y}}", ["1:24: " + OPEN + '"with" of line 1 is open at the end of the file, inside 1 more']),
    ("parentheses that nest too deep", "{{" + "(" * 101 + "1" + ")" * 101 + "}}",
     ["1:1: error: nested too deeply: at most 500 controls and blocks may be open, and 100 parentheses"]),
    ("a second definition", '{{define "t"}}a{{end}}\n\n {{define "t"}}b{{end}}',
     ['3:2: error: second definition: second definition of "t", the first in line 1']),
    ("a second definition on the line of the first, after a blank one",
     '{{define "t"}}{{end}}{{define "t"}}a{{end}} {{define "t"}}b{{end}}',
     ['1:45: error: second definition: second definition of "t", the first in line 1']),
    ("a second definition whose name has a backslash", r'{{define "t\\u"}}a{{end}} {{define "t\\u"}}b{{end}}',
     ['1:27: error: second definition: second definition of "t\\u", the first in line 1']),
    # several, and where
    ("one mistake is one line", "{{if nofun .x}}{{range $i, $e := nofun .y}}{{$i}}{{$e}}{{break}}{{end}}{{else}}{{end}}", [
        "1:1: " + NOT_UNDERSTOOD + 'no function "nofun"', "1:16: " + NOT_UNDERSTOOD + 'no function "nofun"']),
    ("after one that can't be read", "{{.a ! .b}}\n{{name}}\n{{.c}}{{end}}", [
        "1:1: " + UNREADABLE + 'unexpected "!": write not .b', "2:1: " + NOT_UNDERSTOOD + 'no function "name": write .name',
        "3:7: " + OUT_OF_PLACE + END]),
    ("a part around one that can't be read", "{{range .x}}{{.a ! .b}}{{end}}{{nofun 1}}", [
        "1:13: " + UNREADABLE + 'unexpected "!": write not .b', "1:31: " + NOT_UNDERSTOOD + 'no function "nofun"']),
    ("a part that can't be read", "{{if .a >= 1}}{{else}}{{end}}{{end}}", [
        "1:1: " + UNREADABLE + '">=" is no operand: write ge .a 1', "1:30: " + OUT_OF_PLACE + END]),
    ("a variable of one that can't be read", "{{$x := .a + 1}}{{$x}}",
     ["1:1: " + UNREADABLE + 'unexpected "+": there is no arithmetic; compute it in the data']),
    ("what is left open around one that can't be read", "{{if .x}}{{.a ! .b}}", [
        "1:10: " + UNREADABLE + 'unexpected "!": write not .b', "1:21: " + OPEN + '"if" of line 1 is open at the end of the file']),
    ("one of two lines that can't be read", "{{.a !\n .b}}\n{{name}}é{{name}}", [
        "1:1: " + UNREADABLE + 'unexpected "!": write not .b', "3:1: " + NOT_UNDERSTOOD + 'no function "name": write .name',
        "3:10: " + NOT_UNDERSTOOD + 'no function "name": write .name']),
    ("two that can't be read, and one that can", "é{{.a !}}{{nofun 1}}{{'a}}", [
        "1:2: " + UNREADABLE + 'unexpected "!": write not .x', "1:10: " + NOT_UNDERSTOOD + 'no function "nofun"',
        "1:21: " + UNREADABLE + "a character in quotes is not closed in its line; a text stands in double quotes"]),
    ("a variable of a part that ended", "{{if $y := .a}}{{$y}}{{end}}{{$y}}", ["1:29: " + UNDECLARED + undeclared("y")]),
    ("a variable of the part before an else", "{{if .a}}{{$y := 1}}{{$y}}{{else if $y}}{{end}}",
     ["1:27: " + UNDECLARED + undeclared("y")]),
    ("before a trim marker", " \n  {{- name}}", ["2:3: " + NOT_UNDERSTOOD + 'no function "name": write .name']),
    ("after a comment", "{{/* {{ */}}{{name}}", ["1:13: " + NOT_UNDERSTOOD + 'no function "name": write .name']),
    ("after a text like an action", '{{"{{"}}{{name}}', ["1:9: " + NOT_UNDERSTOOD + 'no function "name": write .name']),
    ("columns in characters", "é☃{{name}}\t{{name}}", ["1:3: " + NOT_UNDERSTOOD + 'no function "name": write .name',
        "1:12: " + NOT_UNDERSTOOD + 'no function "name": write .name']),
    ("an action of several lines", "\n {{if\n  .x ==\n 1}}{{end}}", ["2:2: " + NOT_UNDERSTOOD + '"==" is no operand: write eq .x 1']),
    ("what is left open after a refusal", "{{if nofun}}", ["1:1: " + NOT_UNDERSTOOD + 'no function "nofun": write .nofun',
        "1:13: " + OPEN + '"if" of line 1 is open at the end of the file']),
    # warnings
    ("a template that no file has", '{{template "t"}}', ['1:1: warning: no file defines the template "t"']),
    ("a variable that nothing uses", "{{$x := 1}}", ['1:1: warning: variable "$x" is never used']),
    ("a key that nothing uses", "{{range $i, $e := .}}{{$e}}{{end}}", []),
    ("a text like an action", "a{ {.x}}", ['1:2: warning: "{ {" begins no action: it is text']),
    ("an action of Jinja", "a\n {% if x %}b{% endif %}", ['2:2: warning: "{%" begins no action: write {{']),
    ("a byte order mark", "\ufeffa{{.x}}", ["1:1: warning: a byte order mark is text: save the file without it"]),
    ("a template that is meant to be missing", '{{template "stop: no name"}}{{template "stop"}}', ['1:29: warning: no file defines the template "stop"']),
    ("an action that always fails in a part", "a\n{{if .a and .b}}x{{end}}", ["2:1: warning: always fails: \"and\" stands among arguments: write and .a .b"]),
    ("two commands of an action that always fail", "{{len 5 | len 6}}", ['1:1: warning: always fails: "len" refuses 5']),
    ("the end of an action that is none", "a\n b}}", ['2:3: warning: "}}" closes no action: it is text']),
]

# commands that fail at each run that gets to them: a title, the command, what is said of it, and what it says to write, which is the same over
# the data that comes first
AMONG = '"{}" stands among arguments'
FAILING_DATA = {"a": "x", "b": "", "n": 7, "list": [1, 2], "m": {"k": "v"}}
FAILING = [
    ("and between two", ".a and .b", AMONG.format("and"), "and .a .b"),
    ("or between two", ".a or .b", AMONG.format("or"), "or .a .b"),
    ("and and or", ".a and .b or .n", AMONG.format("and"), "or (and .a .b) .n"),
    ("or between two comparisons", 'eq .a "x" or eq .b "y"', AMONG.format("or"), 'or (eq .a "x") (eq .b "y")'),
    ("and between two comparisons", 'eq .a "x" and ne .b "y"', AMONG.format("and"), 'and (eq .a "x") (ne .b "y")'),
    ("a comparison after a not", 'not eq .a "x"', '"not" takes 1 argument and has 3', 'not (eq .a "x")'),
    ("two that are negated", "not .a and not .b", '"not" takes 1 argument and has 4', "and (not .a) (not .b)"),
    ("equal between two", '.a eq "x"', AMONG.format("eq"), 'eq .a "x"'),
    ("not equal between two", '.a ne "x"', AMONG.format("ne"), 'ne .a "x"'),
    ("a length before a comparison", "len .list gt 1", '"len" takes 1 argument and has 3', "gt (len .list) 1"),
    ("a function without parentheses", "print len .list", AMONG.format("len"), "print (len .list)"),
    ("in parentheses", 'and .a (.b eq "x")', AMONG.format("eq"), 'eq .b "x"'),
    ("of several strings", 'eq .a "x" or "y"', AMONG.format("or"), 'eq .a "x" "y"'),
    ("of three strings, after the value", '.a eq "x" or "y" or "z"', AMONG.format("eq"), 'eq .a "x" "y" "z"'),
    ("of a string and a field", 'eq .a "x" or .b', AMONG.format("or"), 'or (eq .a "x") .b'),
    ("not of several strings", 'ne .a "x" or "y"', '"ne" takes 2 arguments and has 4', None),
    ("too many arguments", "len .a .b", '"len" takes 1 argument and has 2', None),
    ("too few arguments", "eq .a", '"eq" takes 2 or more arguments and has 1', None),
    ("a value that is piped is an argument", ".a | len .b", '"len" takes 1 argument and has 2', None),
    ("no argument", "len", '"len" takes 1 argument and has none', None),
    ("four parts", "slice .a 1 2 3", '"slice" takes 1 to 3 arguments and has 4', None),
    ("two numbers of two", "lt .n", '"lt" takes 2 arguments and has 1', None),
    ("a constant without a length", "len 5", '"len" refuses 5', None),
    ("constants that can't be compared", 'lt 1 "x"', '"lt" refuses 1 "x"', None),
    ("an argument of a string", '"a" "b"', '"a" is no function, and has an argument', None),
    ("an argument of a field", '.a "x"', '".a" is no function, and has an argument', None),
    ("a pipe into a field", ".a | .b", 'nothing can be piped to ".b", which is no function', None),
    ("nil alone", "nil", '"nil" is no command', None),
]

JSON = "error: not JSON: "
WHOLE = "error: number not whole or out of range: "
DATA = [
    ("nothing wrong", '{"a": [1, true, null, "x"]}', []),
    ("fractions", '{"outputs": {"price": 1.5},\n "list": [1, 2.0, -0]}', [
        "1:23: " + WHOLE + ".outputs.price: 1.5 is not whole or is out of range",
        "2:14: " + WHOLE + ".list[1]: 2.0 is not whole or is out of range",
        "2:19: " + WHOLE + ".list[2]: -0 is not whole or is out of range"]),
    ("a number alone", "1e3", ["1:1: " + WHOLE + ".: 1e3 is not whole or is out of range"]),
    ("too large", "[9223372036854775808]", ["1:2: " + WHOLE + "[0]: 9223372036854775808 is not whole or is out of range"]),
    ("a comma too many", '{"a": 1,}', ["1:9: " + JSON + 'a key is wanted after ","']),
    ("a comma too many in a list", "[1,]", ["1:4: " + JSON + 'a value is wanted after ","']),
    ("no comma", '{"a": 1\n"b": 2}', ["2:1: " + JSON + '"," or "}" is wanted after an entry']),
    ("a text in single quotes", "{'a': 1}", ["1:2: " + JSON + "a key in double quotes is wanted"]),
    ("a comment", "// x\n1", ["1:1: " + JSON + "a value is wanted: JSON has no comments"]),
    ("YAML", "a: 1\nb: 2\n", ["1:1: " + JSON + "a value is wanted: if this is YAML, make JSON of it first"]),
    ("a byte order mark", "\ufeff{}", ["1:1: " + JSON + "a value is wanted, and no byte order mark before it"]),
    ("nothing", "", ["1:1: " + JSON + "a value is wanted, and the file ends"]),
    ("two values", "1 2", ["1:3: " + JSON + "the end is wanted after the value"]),
    ("a text that is not closed", '["a', ["1:4: " + JSON + "a text is not closed"]),
    ("a newline in a text", '["a\n"]', ["1:4: " + JSON + "a text has no newline, tab or other control byte: write \\n or \\t"]),
    ("a number with a zero first", "[01]", ["1:3: " + JSON + "this is no number of JSON"]),
    ("a fraction before what is not JSON", "[1.5, x]", ["1:7: " + JSON + "a value is wanted"]),
    ("a key twice", '{"a": 1, "b": {"a": 2, "a": 3}}', ["1:24: warning: .b.a: the key is given twice, and the last counts"]),
]

# whole files, as people write them who come from other tools
FILES = [
    ("Helm: a deployment", """apiVersion: apps/v1
kind: Deployment
metadata:
  name: {{ include "shop.fullname" . }}
  labels:
    {{- include "shop.labels" . | nindent 4 }}
spec:
  replicas: {{ .Values.replicaCount | default 1 }}
  template:
    spec:
      {{- with .Values.imagePullSecrets }}
      imagePullSecrets:
        {{- toYaml . | nindent 8 }}
      {{- end }}
      containers:
        - name: {{ .Chart.Name | quote }}
""", ["4:9: " + NOT_UNDERSTOOD + 'no function "include": write {{template "name" .}}' + PIPED,
      "6:5: " + NOT_UNDERSTOOD + 'no function "include": write {{template "name" .}}' + PIPED,
      "8:13: " + NOT_UNDERSTOOD + 'no function "default": write or (index . "x") "d"',
      "13:9: " + NOT_UNDERSTOOD + 'no function "toYaml": write {{template "to json" .x}} of examples/quotes',
      "16:17: " + NOT_UNDERSTOOD
      + 'no function "quote": write {{template "yaml" .x}} of examples/quotes, or json, sh, systemd or nginx by the format of the output']),
    ("Helm: names", """{{- define "shop.name" -}}
{{- default .Chart.Name .Values.nameOverride | trunc 63 | trimSuffix "-" }}
{{- end }}
{{- if and .Values.ingress.enabled (not (hasKey .Values "host")) }}
{{- fail "no host" }}
{{- end }}
""", ["2:1: " + NOT_UNDERSTOOD + 'no function "default": write or (index . "x") "d"',
      "4:1: " + NOT_UNDERSTOOD + 'no function "hasKey": write ne (index .x "k") nil',
      "5:1: " + NOT_UNDERSTOOD + 'no function "fail": write {{template "stop: message"}}, and the error line has its name']),
    ("Helm: ports by a sum", """{{- range $i := until (int .Values.count) }}
port: {{ add 8000 $i }}
{{- end }}
""", ["1:1: " + NOT_UNDERSTOOD + 'no function "until": write {{range 5}}',
      "2:7: " + NOT_UNDERSTOOD + 'no function "add": there is no arithmetic: compute it in the data']),
    ("gomplate: the environment", """listen {{ getenv "PORT" "80" }};
{{ if eq (.Env.TLS | strings.ToLower) "on" }}tls{{ end }}
{{ (ds "config").title | toUpper }}
""", ["1:8: " + NOT_UNDERSTOOD + 'no function "getenv": put it into the data: a run reads only the files of its command line',
      "2:1: " + NOT_UNDERSTOOD + 'no function "strings": write a template of examples/quotes, as {{template "upper" .x}}',
      "3:1: " + NOT_UNDERSTOOD + 'no function "ds": put it into the data: a run reads only the files of its command line']),
    ("consul-template: an upstream", """upstream web {
{{ range service "web" }}
  server {{ .Address }}:{{ .Port }};
{{ else }}
  server 127.0.0.1:65535;
{{ end }}
}
root {{ key "web/root" }};
""", ["2:1: " + NOT_UNDERSTOOD + 'no function "service": put it into the data: a run reads only the files of its command line',
      "8:6: " + NOT_UNDERSTOOD + 'no function "key": put it into the data: a run reads only the files of its command line']),
    ("Jinja: a list", """{{ title }}
{{ for item in items }}
  {{ item.name }}: {{ item.price * 2 }}
{{ endfor }}
""", ["1:1: " + NOT_UNDERSTOOD + 'no function "title": change the string in the data',
      "2:1: " + NOT_UNDERSTOOD + 'no function "for": write {{range .list}}',
      "3:3: " + NOT_UNDERSTOOD + 'no function "item": write .item.name',
      "3:20: " + UNREADABLE + 'unexpected "*": there is no arithmetic; compute it in the data',
      "4:1: " + NOT_UNDERSTOOD + 'no function "endfor": write {{end}}']),
    ("Handlebars: a list", """{{#each people}}
  {{#if admin}}*{{else}}-{{/if}} {{name}}
{{/each}}
""", ["1:1: " + UNREADABLE + '"#each" begins no action: a part begins with if, with or range and ends with end',
      "2:3: " + UNREADABLE + '"#if" begins no action: a part begins with if, with or range and ends with end',
      "2:26: " + UNREADABLE + '"/if" begins no action: a part begins with if, with or range and ends with end',
      "2:34: " + NOT_UNDERSTOOD + 'no function "name": write .name',
      "3:1: " + UNREADABLE + '"/each" begins no action: a part begins with if, with or range and ends with end']),
    ("operators as in programs", """{{if .age >= 18 && .name != "Ada"}}
{{.list[0]}}
{{else if !.ok}}
{{.a.b-c}}
{{end}}
""", ["1:1: " + UNREADABLE + '">=" is no operand: write ge .age 18',
      "2:1: " + UNREADABLE + 'unexpected "[": write index .list 0',
      "3:1: " + UNREADABLE + 'unexpected "!": write not .ok',
      "4:1: " + UNREADABLE + 'unexpected "-": write index .a "b-c"']),
    ("fields and numbers", """{{name}} {{.s.0}} {{1.5}}
{{if .name == "Ada"}}{{.n | add 1}}{{end}}
{{range $i, $e := .xs}}{{if $i}}, {{end}}{{$e}}{{end}}
{{$total}}
""", ["1:1: " + NOT_UNDERSTOOD + 'no function "name": write .name',
      "1:10: " + NOT_UNDERSTOOD + 'no field ".0": write index .s 0',
      "1:19: " + NOT_UNDERSTOOD + "number 1.5 is not whole",
      "2:1: " + NOT_UNDERSTOOD + '"==" is no operand: write eq .name "Ada"',
      "2:22: " + NOT_UNDERSTOOD + 'no function "add": there is no arithmetic: compute it in the data',
      "4:1: " + UNDECLARED + undeclared("total")]),
    ("a part that is not closed", """{{define "row"}}
<td>{{.}}</td>
{{if .x}}
{{end}}
""", ["5:1: " + OPEN + '"define" of line 1 is open at the end of the file']),
]

# what is written by its code in a line, and as it is in JSON: a title, a file, the lines, and the texts in JSON
HIDDEN = [
    ("a name that would make a line of its own", "{{template `z\nm:1:1: error: no` .a}}",
     ['1:1: warning: no file defines the template "z\\nm:1:1: error: no"'], ['no file defines the template "z\nm:1:1: error: no"']),
    ("a name that colours a terminal", "{{template `z\x1b[31m\r\x7f`}}",
     ['1:1: warning: no file defines the template "z\\x1b[31m\\r\\x7f"'], ['no file defines the template "z\x1b[31m\r\x7f"']),
    ("a name that ends a line, and one that turns it", "{{$a\u2028 := 1}}{{$b\u202e := 1}}{{$\u00e9 := 1}}{{$c\u0085 := 1}}",
     ['1:1: warning: variable "$a\\u2028" is never used', '1:13: warning: variable "$b\\u202e" is never used',
      '1:25: warning: variable "$\u00e9" is never used', '1:36: warning: variable "$c\\u0085" is never used'],
     ['variable "$a\u2028" is never used', 'variable "$b\u202e" is never used', 'variable "$\u00e9" is never used', 'variable "$c\u0085" is never used']),
]

# runs over data: a title, the template, the mode, and what is found after the name of the file: each error is the fault of tmpl, with its
# message, and more about it
RUN_DATA = {"name": "Ada", "ports": 8080, "list": [1, "x"], "user": {"mail": "a@b"}, "none": None, "ok": True,
            "rows": [{"size": {"width": 1}}, {"size": 7}, {"size": "x"}]}
NO_FIELD = 'error: no field "%s" here: '
NO_FIELDS = ", which has no fields"
LENGTH = "len: wrong kind of argument: "
RUNS = [
    ("no fault", "{{.name}}{{len .list}}{{range .user}}{{.}}{{end}}", "default", []),
    ("a length of an integer", "Dear\n{{.name}}\né {{len .ports}}", "default", ["3:3: error: " + LENGTH + ".ports is an integer (8080), which has no length"]),
    ("of the data", "{{len $.ok}}", "default", ["1:1: error: " + LENGTH + "$.ok is a boolean (true), which has no length"]),
    ("that is piped", "{{.none | len}}", "default", ["1:1: error: " + LENGTH + ".none is null, which has no length"]),
    ("the second of two", "{{len .list}} {{len .ports}}", "default", ["1:15: error: " + LENGTH + ".ports is an integer (8080), which has no length"]),
    ("of an item", "{{range .list}}{{len .}}{{end}}", "default", ["1:16: error: " + LENGTH + "dot is an integer (1), which has no length"]),
    ("of the first item that has no such field", "{{range .rows}}{{.size.width}}{{end}}", "default", ["1:16: " + NO_FIELD % "width" + ".size is an integer (7)" + NO_FIELDS]),
    ("of an item past a jump", "{{range .rows}}{{if .skip}}{{continue}}{{end}}{{.size.width}}{{end}}", "default", ["1:47: " + NO_FIELD % "width" + "only a map has fields"]),
    ("of an item under a condition", "{{range .rows}}{{if eq 1 1}}{{.size.width}}{{end}}{{end}}", "default", ["1:29: " + NO_FIELD % "width" + "only a map has fields"]),
    ("of parentheses", "{{(.name).first}}", "default", ["1:1: " + NO_FIELD % "first" + '(..) is a string ("Ada")' + NO_FIELDS]),
    ("of a field of parentheses", "{{(.user).mail.x}}", "default", ["1:1: " + NO_FIELD % "x" + '(..).mail is a string ("a@b")' + NO_FIELDS]),
    ("of an item by its index", "{{(index .list 0).x}}", "default", ["1:1: " + NO_FIELD % "x" + "(..) is an integer (1)" + NO_FIELDS]),
    ("of one part of a condition", "{{if .ok}}{{.name.x}}{{else}}{{.ports.x}}{{end}}", "default", ["1:11: " + NO_FIELD % "x" + '.name is a string ("Ada")' + NO_FIELDS]),
    ("beside what `and` leaves out", "{{or (and .none .ports.x) .name.x}}", "default", ["1:1: " + NO_FIELD % "x" + "only a map has fields"]),
    ("in a template that is called", '{{define "t"}}{{len .}}{{end}}{{template "t" .ports}}', "default", ["1:15: error: " + LENGTH + "it takes a string, a list or a map"]),
    ("in a with", "{{with .user}}\n{{.mail.x}}{{end}}", "default", ['2:1: error: no field "x" here: .mail is a string ("a@b"), which has no fields']),
    ("a field of a string", "{{.name.first}}", "default", ['1:1: error: no field "first" here: .name is a string ("Ada"), which has no fields']),
    ("a field that is absent", "{{.user.age}}", "error", ['1:1: error: no entry for key "age": .user has "mail": where it may be absent write index .user "age"']),
    ("a field that may be absent", "{{.user.age}}", "default", []),
    ("a field of dot that is absent", "{{with .user}}{{.age}}{{end}}", "error",
     ['1:15: error: no entry for key "age": dot has "mail": where it may be absent write index . "age"']),
    ("a range over a string", "{{range .name}}{{end}}", "default",
     ["1:1: error: can't range over this value: .name is a string (\"Ada\"): a range visits a list, a map or the numbers below an integer"]),
    ("a comparison of two kinds", '{{if lt .ports "a"}}{{end}}', "default",
     ["1:1: error: lt: can't be compared: .ports is an integer (8080), \"a\" is a string; it compares two integers or two strings"]),
    ("an index past the end", "{{index .list 2}}", "default",
     ["1:1: error: index: out of range: .list is a list of 2 items, 2 is an integer; an index is from 0 to one below the length"]),
    ("an integer as a string", '{{printf "%s" .ports}}', "default", ['1:1: error: printf: format refused: "%s" is a string, .ports is an integer (8080); '
                                                                       "each form of the format takes one argument, of its kind"]),
    ("a stop", 'x{{template "stop: no port"}}', "default", ['1:2: error: no template "stop: no port"']),
    ("where no run gets to", "{{if .none}}{{len .ports}}{{end}}", "default", []),
    ("more steps than are taken", "{{range 1000000}}{{end}}", "default", ["1:1: warning: the run over the data ended at a limit of this check, and what comes "
     "after is not checked: 1,000,000 steps, 500 templates inside one another or 16,000,000 bytes of output"]),
    ("calls without end", '{{define "r"}}{{template "r"}}{{end}}{{template "r"}}', "default", ["1:1: warning: the run over the data ended at a limit of this "
     "check, and what comes after is not checked: 1,000,000 steps, 500 templates inside one another or 16,000,000 bytes of output"]),
]
