package tmpl

import (
	"errors"
	"fmt"
	"io"
	"os"
	"strings"
	"sync"
	"testing"
)

func rendered(text, data string, options Options) (string, error) {
	var out strings.Builder
	err := Render(&out, []File{{Name: "m", Bytes: []byte(text)}}, "m", []byte(data), options)
	return out.String(), err
}

func TestRender(t *testing.T) {
	got, err := rendered("Hello, {{.name}}!", `{"name": "Ada"}`, Options{})
	if got != "Hello, Ada!" || err != nil {
		t.Error(got, err)
	}
}

func TestLong(t *testing.T) {
	var wanted strings.Builder
	for i := 0; i < 100000; i++ {
		fmt.Fprintf(&wanted, "%6d", i)
	}
	got, err := rendered(`{{range 100000}}{{printf "%6d" .}}{{end}}`, "", Options{})
	if got != wanted.String() || err != nil {
		t.Error(len(got), err)
	}
}

func TestFault(t *testing.T) {
	got, err := rendered("before {{.a.b}}", `{"a": 1}`, Options{})
	var told *Error
	if got != "before " || !errors.As(err, &told) || told.Status != 1 || told.Line != "tmpl: m:1: in \"m\": no field \"b\" here" {
		t.Error(got, err)
	}
}

func TestOptions(t *testing.T) {
	_, err := rendered("{{.name}}", "{}", Options{MissingKey: Fault})
	var told *Error
	if !errors.As(err, &told) || told.Line != "tmpl: m:1: in \"m\": no entry for key \"name\"" {
		t.Error(err)
	}
	got, err := rendered("{{ .name|len }}", "", Options{Print: true})
	if got != "{{define \"m\"}}{{.name | len}}{{end}}\n" || err != nil {
		t.Error(got, err)
	}
}

func TestNothing(t *testing.T) {
	if err := Render(&strings.Builder{}, nil, "", nil, Options{}); err == nil || err.(*Error).Status != 4 {
		t.Error(err)
	}
}

func TestTemplates(t *testing.T) {
	var pages Templates
	defer pages.Close()
	if err := pages.Add(File{Name: "m", Bytes: []byte("{{.n}} and {{.k}}")}); err != nil {
		t.Fatal(err)
	}
	var told *Error
	if err := pages.Add(File{Name: "n", Bytes: []byte("{{")}); !errors.As(err, &told) || told.Line != "tmpl: n:1: unclosed or unreadable action" {
		t.Error(err)
	}
	err := pages.Execute(io.Discard, "m", []byte("[1.5]"), Options{})
	if !errors.As(err, &told) || told.Status != 5 {
		t.Error(err)
	}
	var out strings.Builder
	if err := pages.Execute(&out, "", nil, Options{Print: true}); err != nil || out.String() != "{{define \"m\"}}{{.n}} and {{.k}}{{end}}\n" {
		t.Error(out.String(), err)
	}
	pages.Close()
	if err := pages.Execute(io.Discard, "m", nil, Options{}); !errors.As(err, &told) || told.Status != 4 {
		t.Error(err)
	}
}

func TestLongTemplates(t *testing.T) {
	var pages Templates
	if err := pages.Add(File{Name: "m", Bytes: []byte(`{{range 100000}}0123456789{{end}}`)}); err != nil {
		t.Fatal(err)
	}
	var out strings.Builder
	if err := pages.Execute(&out, "m", nil, Options{}); err != nil || out.String() != strings.Repeat("0123456789", 100000) {
		t.Error(out.Len(), err)
	}
}

// 8 goroutines over one set, each with data of its own.
func TestGoroutines(t *testing.T) {
	var pages Templates
	defer pages.Close()
	if err := pages.Add(File{Name: "m", Bytes: []byte("{{.n}} and {{.k}}")}); err != nil {
		t.Fatal(err)
	}
	var all sync.WaitGroup
	for n := 0; n < 8; n++ {
		all.Add(1)
		go func(n int) {
			defer all.Done()
			for k := 0; k < 12500; k++ {
				var out strings.Builder
				err := pages.Execute(&out, "m", []byte(fmt.Sprintf(`{"n": %d, "k": %d}`, n, k)), Options{})
				if wanted := fmt.Sprintf("%d and %d", n, k); out.String() != wanted || err != nil {
					t.Error(out.String(), wanted, err)
					return
				}
			}
		}(n)
	}
	all.Wait()
}

// resident gives the kilobytes that the process has.
func resident(t *testing.T) int {
	told, err := os.ReadFile("/proc/self/statm")
	var size, pages int
	if _, e := fmt.Sscan(string(told), &size, &pages); err != nil || e != nil {
		t.Fatal(err, e)
	}
	return pages * 4
}

func TestMemory(t *testing.T) {
	var pages Templates
	defer pages.Close()
	if err := pages.Add(File{Name: "m", Bytes: []byte("{{.n}} and {{.k}}")}); err != nil {
		t.Fatal(err)
	}
	before := 0
	for k := -10000; k < 100000; k++ {
		if k == 0 {
			before = resident(t)
		}
		if err := pages.Execute(io.Discard, "m", []byte(fmt.Sprintf(`{"n": 1, "k": %d}`, k)), Options{}); err != nil {
			t.Fatal(err)
		}
	}
	if more := resident(t) - before; more > 4096 {
		t.Errorf("100,000 renders: %d kB more", more)
	}
}

// Files are added while others render: each render is of what was there before or after.
func TestFilesAddedMeanwhile(t *testing.T) {
	var pages Templates
	if err := pages.Add(File{Name: "m", Bytes: []byte("{{.}} 0")}); err != nil {
		t.Fatal(err)
	}
	var all sync.WaitGroup
	for n := 0; n < 4; n++ {
		all.Add(1)
		go func(n int) {
			defer all.Done()
			for k := n * 2000; k < n*2000+2000; k++ {
				var out strings.Builder
				value, file := 0, 0
				err := pages.Execute(&out, "m", []byte(fmt.Sprint(k)), Options{})
				if _, e := fmt.Sscan(out.String(), &value, &file); err != nil || e != nil || value != k || file > 50 {
					t.Error(out.String(), err, e)
					return
				}
			}
		}(n)
	}
	for file := 1; file <= 50; file++ {
		if err := pages.Add(File{Name: "n", Bytes: []byte(fmt.Sprintf("{{define \"m\"}}{{.}} %d{{end}}", file))}); err != nil {
			t.Error(err)
		}
	}
	all.Wait()
	var out strings.Builder
	if err := pages.Execute(&out, "m", []byte("1"), Options{}); err != nil || out.String() != "1 50" {
		t.Error(out.String(), err)
	}
}

func TestCheckSchema(t *testing.T) {
	schema := []byte(`{"type": "object", "properties": {"a": {"type": "string"}}, "required": ["a"]}`)
	safe := []File{{"m", []byte("{{if .a}}{{len .a}}{{else}}{{template `stop`}}{{end}}")}}
	found, err := CheckSchema(safe, Question{Schema: schema, Stops: []string{"stop"}})
	for _, it := range found {
		if it.Level == "error" {
			t.Error(it)
		}
	}
	if err != nil {
		t.Error(err)
	}
	found, err = CheckSchema([]File{{"m", []byte("{{len .b}}")}}, Question{Schema: schema})
	if err != nil || len(found) != 1 || found[0].Line != 1 || found[0].Column != 1 || found[0].Level != "error" || found[0].Note == "" {
		t.Error(found, err)
	}
	if _, err := CheckSchema([]File{{"\xff", nil}}, Question{Schema: schema}); err == nil || err.(*Error).Status != 2 {
		t.Error(err)
	}
}

func TestCheck(t *testing.T) {
	mistake := "1:1: error: action not understood: no function \"name\": write .name"
	files := []File{{Name: "a", Bytes: []byte("{{name}}")}, {Name: "b", Bytes: []byte("text")}, {Name: "c", Bytes: []byte("{{name}}")}}
	if found, err := Check(files, CheckOptions{}); err != nil || fmt.Sprint(found) != fmt.Sprint([]string{"a:" + mistake, "c:" + mistake}) {
		t.Error(found, err)
	}
	for _, right := range [][]File{files[1:2], nil} {
		if found, err := Check(right, CheckOptions{}); err != nil || len(found) != 0 {
			t.Error(found, err)
		}
	}
	if _, err := Check([]File{{Name: "\xff"}}, CheckOptions{}); err == nil || err.(*Error).Status != 2 {
		t.Error(err)
	}
}

func TestProblems(t *testing.T) {
	var pages Templates
	defer pages.Close()
	name := "b:1:1: error: out of place: c"
	err := pages.Add(File{Name: name, Bytes: []byte("\n {{name}}")})
	of, is := err.(*Error)
	if !is || of.File != name || of.LineNumber != 2 {
		t.Fatal(err)
	}
	wanted := Problem{name, 2, 2, "not-understood", "action not understood: no function \"name\": write .name"}
	for time := 0; time < 2; time++ {
		if found, err := of.Problems(); err != nil || len(found) != 1 || found[0] != wanted {
			t.Error(found, err)
		}
	}
	many := File{Name: "m", Bytes: []byte(strings.Repeat("{{}}", 3000))}
	if found, err := pages.Add(many).(*Error).Problems(); err != nil || len(found) != 1000 {
		t.Error(len(found), err)
	}
	if found, err := Check([]File{many}, CheckOptions{Most: 7}); err != nil || len(found) != 7 {
		t.Error(len(found), err)
	}
	if _, err := Check([]File{many}, CheckOptions{Memory: 10000}); err != ErrMemory {
		t.Error(err)
	}
	err = Render(io.Discard, []File{{Name: "m", Bytes: []byte("{{range 1}}\n{{len .}}{{end}}")}}, "m", nil, Options{})
	if of := err.(*Error); of.File != "m" || of.LineNumber != 2 {
		t.Error(err)
	}
}

func TestLimits(t *testing.T) {
	files := []File{{Name: "m", Bytes: []byte("{{range 100000}}0123456789{{end}}")}}
	var out strings.Builder
	if err := Render(&out, files, "m", nil, Options{Output: 12}); err == nil || err.(*Error).Status != 6 || err.Error() != "tmpl: more than 12 bytes of output" || out.String() != "012345678901" {
		t.Error(out.String(), err)
	}
	numbers := []byte("[0" + strings.Repeat(",0", 500000) + "]")
	if err := Render(io.Discard, []File{{Name: "m"}}, "m", numbers, Options{Memory: 100000}); err != ErrMemory {
		t.Error("data of 1 MB in 100,000 bytes:", err)
	}
	parsed := []File{{Name: "m", Bytes: []byte(strings.Repeat("{{.}}", 50000))}}
	if err := Render(io.Discard, parsed, "m", nil, Options{Memory: 100000}); err != ErrMemory {
		t.Error("a file of 250 kB in 100,000 bytes:", err)
	}
	var pages Templates
	defer pages.Close()
	if err := pages.AddWithin(100000, parsed[0]); err != ErrMemory {
		t.Error("a file of 250 kB in 100,000 bytes:", err)
	}
	if err := Render(&out, files, "m", nil, Options{Memory: 1 << 16}); err != ErrMemory {
		t.Error(err)
	}
	out.Reset()
	if err := Render(&out, files, "m", nil, Options{Memory: 1 << 23}); err != nil || out.Len() != 1000000 {
		t.Error(out.Len(), err)
	}
}
