// Renders templates by Go's own text/template, to compare with.
//
//	main render TEMPLATE [DATA]   renders one file, with the data of a JSON file, to standard output
//	main cases < CASES            renders each case of a JSON list, and puts out what came of each
//	main times TEMPLATE DATA COUNT [kept]
//	                              renders so often, and tells the least and the middle time of one render in nanoseconds and
//	                              the bytes of its text, with the parse and the read of the data each time, or once
package main

import (
	"bufio"
	"bytes"
	"encoding/json"
	"fmt"
	"io"
	"os"
	"path/filepath"
	"sort"
	"strconv"
	"text/template"
	"time"
)

type File struct {
	Name, Text string
}

// Case is a set of files, of which the first is rendered.
type Case struct {
	Files []File
	Data  json.RawMessage
}

// Answer is what came of a case. Read is whether all files were read, and Done whether the run ended well.
type Answer struct {
	Read, Done bool
	Text       []byte
	Fault      string
}

// whole turns numbers into whole ones, which is what the data of tmpl has.
func whole(it any) (any, error) {
	switch it := it.(type) {
	case json.Number:
		n, err := it.Int64()
		return int(n), err
	case []any:
		for i := range it {
			var err error
			if it[i], err = whole(it[i]); err != nil {
				return nil, err
			}
		}
	case map[string]any:
		for key := range it {
			var err error
			if it[key], err = whole(it[key]); err != nil {
				return nil, err
			}
		}
	}
	return it, nil
}

func read(data []byte) (any, error) {
	decoder := json.NewDecoder(bytes.NewReader(data))
	decoder.UseNumber()
	var it any
	if err := decoder.Decode(&it); err != nil {
		return nil, err
	}
	return whole(it)
}

// render does what ParseFiles and Execute do. A later file may have replaced the template of the first.
func render(files []File, data any, out io.Writer) (read bool, fault error) {
	set := template.New(files[0].Name)
	for _, it := range files {
		one := set
		if it.Name != set.Name() {
			one = set.New(it.Name)
		}
		if _, err := one.Parse(it.Text); err != nil {
			return false, err
		}
	}
	return true, set.ExecuteTemplate(out, set.Name(), data)
}

func answer(it Case) Answer {
	data, err := read(it.Data)
	if err != nil {
		return Answer{Fault: err.Error()}
	}
	var out bytes.Buffer
	read, fault := render(it.Files, data, &out)
	answer := Answer{Read: read, Done: fault == nil, Text: out.Bytes()}
	if fault != nil {
		answer.Fault = fault.Error()
	}
	return answer
}

func answerAll() error {
	var cases []Case
	if err := json.NewDecoder(bufio.NewReader(os.Stdin)).Decode(&cases); err != nil {
		return err
	}
	answers := make([]Answer, len(cases))
	for i, it := range cases {
		answers[i] = answer(it)
	}
	return json.NewEncoder(os.Stdout).Encode(answers)
}

func renderFile(file string, rest []string) error {
	text, err := os.ReadFile(file)
	if err != nil {
		return err
	}
	var data any
	if len(rest) > 0 {
		bytes, err := os.ReadFile(rest[0])
		if err != nil {
			return err
		}
		if data, err = read(bytes); err != nil {
			return err
		}
	}
	out := bufio.NewWriter(os.Stdout)
	if _, err := render([]File{{filepath.Base(file), string(text)}}, data, out); err != nil {
		return err
	}
	return out.Flush()
}

func timeRenders(template, held, times string, kept bool) error {
	text, err := os.ReadFile(template)
	if err != nil {
		return err
	}
	bytes, err := os.ReadFile(held)
	if err != nil {
		return err
	}
	count, err := strconv.Atoi(times)
	if err != nil {
		return err
	}
	return tellTimes(string(text), bytes, count, kept)
}

func tellTimes(text string, held []byte, count int, kept bool) error {
	var out bytes.Buffer
	set, data, err := parsed(text, held)
	each := make([]float64, 31)
	for i := range each {
		start := time.Now()
		for k := 0; k < count && err == nil; k++ {
			if !kept {
				set, data, err = parsed(text, held)
			}
			if err == nil {
				out.Reset()
				err = set.Execute(&out, data)
			}
		}
		each[i] = float64(time.Since(start).Nanoseconds()) / float64(count)
	}
	sort.Float64s(each)
	fmt.Printf("%.0f %.0f %d\n", each[0], each[len(each)/2], out.Len())
	return err
}

func parsed(text string, held []byte) (*template.Template, any, error) {
	data, err := read(held)
	if err != nil {
		return nil, nil, err
	}
	set, err := template.New("m").Parse(text)
	return set, data, err
}

func main() {
	var err error
	switch words := os.Args[1:]; {
	case len(words) == 1 && words[0] == "cases":
		err = answerAll()
	case len(words) >= 2 && words[0] == "render":
		err = renderFile(words[1], words[2:])
	case len(words) >= 4 && words[0] == "times":
		err = timeRenders(words[1], words[2], words[3], len(words) == 5)
	default:
		err = fmt.Errorf("words: render TEMPLATE [DATA], times TEMPLATE DATA COUNT [kept], or cases")
	}
	if err != nil {
		fmt.Fprintln(os.Stderr, err)
		os.Exit(1)
	}
}
