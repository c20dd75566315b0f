// Package tmpl renders templates of the language of Go's text/template over data in JSON, by the library of Rilphong.
package tmpl

/*
#cgo CFLAGS: -I${SRCDIR}/../c
#cgo LDFLAGS: -L${SRCDIR}/../out -ltmpl -Wl,-rpath,${SRCDIR}/../out
#include <stdlib.h>
#include "tmpl.h"
*/
import "C"

import (
	"bytes"
	"encoding/json"
	"errors"
	"fmt"
	"io"
	"regexp"
	"runtime"
	"strconv"
	"strings"
	"sync"
	"unsafe"
)

// File is a template file: its path, and what it holds.
type File struct {
	Name  string
	Bytes []byte
}

// The values of Options.MissingKey.
const (
	Default = iota
	Invalid
	Zero
	Fault
)

// Options say how to run a template; the zero value asks for the defaults.
type Options struct {
	Steps      uint64
	Depth      uint32
	MissingKey uint8
	Print      bool // print the set, and run nothing
	Output     uint // how many bytes of text a render may write: a text that is longer is status 6, with those that come first; 0 for any
	Memory     uint // how many bytes of memory the library may take to parse, to read data and to run; 0 for any
	// Writes is the format of which the text has to be, as json, yaml or csv:3; empty for any. A text that is not is not given: status 8.
	Writes string
}

// Problem is an error in a template file, and where it is.
type Problem struct {
	File         string // its path, as a line shows it: control characters by their codes
	Line, Column int    // from 1; columns count characters
	Rule         string // as `tmpl-check --format json` names it
	Text         string // the reason, as the command has it, what is wrong, and what to write instead where that is known
}

// String gives a line as compilers write it.
func (p Problem) String() string {
	return fmt.Sprintf("%s:%d:%d: error: %s", p.File, p.Line, p.Column, p.Text)
}

// Error is a render that failed: the exit status of the command, and its line without the newline. Where the line names a place of a
// template file, File and LineNumber, from 1, are that place.
type Error struct {
	Status     int
	Line       string
	File       string
	LineNumber int
	refused    *refusal
}

// refusal is the file that was refused, and what is wrong in it, once somebody asks.
type refusal struct {
	file     File
	memory   uint
	once     sync.Once
	problems []Problem
	err      error
}

func (e *Error) Error() string { return e.Line }

// Problems gives the first 1,000 errors of the file that was refused, if one was. They are looked for at the first call, in the
// memory that the refused call was allowed: it may give ErrMemory. The file is kept until then.
func (e *Error) Problems() ([]Problem, error) {
	if e.refused == nil {
		return nil, nil
	}
	e.refused.once.Do(func() {
		e.refused.problems, e.refused.err = Check([]File{e.refused.file}, CheckOptions{Memory: e.refused.memory})
		e.refused.file = File{}
	})
	return e.refused.problems, e.refused.err
}

// ErrMemory says that an allocation failed.
var ErrMemory = errors.New("tmpl: out of memory")

const (
	notAccepted = 4       // the status of a file that is refused
	stopped     = 1       // the status of a run that stopped
	asJSON      = 1       // the form of findings that is asked for
	refused     = 7       // the status for out of memory
	most        = 1000    // problems of files where nothing else is said
	line        = 1 << 12 // bytes of the first buffer for a line
	kept        = 1 << 20 // a text of more bytes is given back after its render
)

// copied gives bytes in memory of C, which has at least one byte; C.free frees it.
func copied(bytes []byte) *C.char {
	at := C.malloc(C.size_t(len(bytes) + 1))
	copy(unsafe.Slice((*byte)(at), len(bytes)+1), bytes)
	return (*C.char)(at)
}

// settingsOf is how C has the options; C.free frees its writes.
func settingsOf(options Options) C.tmpl_settings {
	settings := C.tmpl_settings{size: C.sizeof_tmpl_settings, steps: C.uint64_t(options.Steps), depth: C.uint32_t(options.Depth), missing_key: C.uint8_t(options.MissingKey), output: C.size_t(options.Output)}
	settings.writes, settings.writes_size = copied([]byte(options.Writes)), C.size_t(len(options.Writes))
	if options.Print {
		settings.print = 1
	}
	return settings
}

// fileOf is a file in memory of C; freed frees it.
func fileOf(file File) C.tmpl_file {
	return C.tmpl_file{name: copied([]byte(file.Name)), name_size: C.size_t(len(file.Name)), bytes: copied(file.Bytes), size: C.size_t(len(file.Bytes))}
}

func freed(file C.tmpl_file) {
	C.free(unsafe.Pointer(file.name))
	C.free(unsafe.Pointer(file.bytes))
}

// the place that a line of the command names, by its status
var places = map[int]*regexp.Regexp{
	notAccepted: regexp.MustCompile(`(?s)^tmpl: (.*):(\d+): `),
	stopped:     regexp.MustCompile(`(?s)^tmpl: (.*):(\d+): in "(?:[^"\\]|\\.)*": `),
}

// ended is the error of a call that ended with this status and said this line.
func ended(status C.uint8_t, said []byte) error {
	switch status {
	case 0:
		return nil
	case refused:
		return ErrMemory
	}
	err := &Error{Status: int(status), Line: strings.TrimSuffix(string(said), "\n")}
	if pattern, is := places[err.Status]; is {
		if place := pattern.FindStringSubmatch(err.Line); place != nil {
			err.File = place[1]
			err.LineNumber, _ = strconv.Atoi(place[2])
		}
	}
	return err
}

// within makes calls that take at most this many bytes of memory together, or any number for 0. The limit is that of a thread, so no
// other goroutine runs there meanwhile.
func within(memory uint, call func() error) error {
	if memory == 0 {
		return call()
	}
	runtime.LockOSThread()
	defer runtime.UnlockOSThread()
	C.tmpl_limit_memory(C.size_t(memory))
	defer C.tmpl_limit_memory(0)
	return call()
}

// the rules of tmpl-check, by the reason for which a file is refused
var rules = map[string]string{
	"unclosed or unreadable action":   "unreadable",
	"action not understood":           "not-understood",
	"out of place":                    "out-of-place",
	"undeclared variable":             "undeclared-variable",
	"file ends inside a control":      "open-at-end",
	"nested too deeply":               "nested-too-deeply",
	"file longer than 16777216 bytes": "too-long",
	"second definition":               "second-definition",
	"too many errors":                 "too-many-errors",
}

// problem is what follows the path in a line of a check
var problem = func() *regexp.Regexp {
	var reasons []string
	for reason := range rules {
		reasons = append(reasons, reason)
	}
	return regexp.MustCompile(`(?s):(\d+):(\d+): error: ((` + strings.Join(reasons, "|") + `)(?:: .*)?)$`)
}()

// problemOf takes a line of a check apart. What looks like a place in a name of these files is none.
func problemOf(line string, files []File) Problem {
	name := ""
	for _, file := range files {
		if len(file.Name) > len(name) && strings.HasPrefix(line, file.Name+":") {
			name = file.Name
		}
	}
	found := problem.FindStringSubmatchIndex(line[len(name):])
	if found == nil {
		return Problem{Text: line}
	}
	rest := line[len(name):]
	row, _ := strconv.Atoi(rest[found[2]:found[3]])
	column, _ := strconv.Atoi(rest[found[4]:found[5]])
	return Problem{File: name + rest[:found[0]], Line: row, Column: column, Rule: rules[rest[found[8]:found[9]]], Text: rest[found[6]:found[7]]}
}

// CheckOptions say how much a check may do; the zero value asks for the defaults.
type CheckOptions struct {
	Most   int  // how many problems are given at most; 0 for 1,000
	Memory uint // how many bytes of memory the library may take; 0 for any
}

// filesOf is an array of files in memory of C; freeFiles frees it.
func filesOf(files []File) *C.tmpl_file {
	array := (*C.tmpl_file)(C.malloc(C.size_t(len(files)+1) * C.size_t(unsafe.Sizeof(C.tmpl_file{}))))
	for number, file := range files {
		unsafe.Slice(array, len(files))[number] = fileOf(file)
	}
	return array
}

func freeFiles(array *C.tmpl_file, count int) {
	for _, file := range unsafe.Slice(array, count) {
		freed(file)
	}
	C.free(unsafe.Pointer(array))
}

// Check reports the errors in template files, with what to write instead where that is known: the first options.Most of them. There are none
// where all files are accepted, one after the other.
func Check(files []File, options CheckOptions) ([]Problem, error) {
	array := filesOf(files)
	defer freeFiles(array, len(files))
	var text C.tmpl_text
	defer C.tmpl_text_free(&text)
	if options.Most == 0 {
		options.Most = most
	}
	err := within(options.Memory, func() error {
		status := C.tmpl_check(array, C.size_t(len(files)), C.size_t(options.Most), &text)
		return ended(status, []byte("tmpl: the name of a file is not UTF-8"))
	})
	if of, is := err.(*Error); !is || of.Status != notAccepted {
		return nil, err
	}
	var problems []Problem
	for rest := bytesOf(&text); len(problems) < options.Most && len(rest) > 0; {
		end := bytes.IndexByte(rest, '\n')
		problems = append(problems, problemOf(string(rest[:end]), files))
		rest = rest[end+1:]
	}
	return problems, nil
}

// Question is what a template is asked over a JSON Schema.
type Question struct {
	Schema     []byte
	SchemaName string   // by which findings call it; "schema" where it is empty
	Name       string   // the template that is rendered; the first file's own where it is empty
	Stops      []string // templates that may be missing, since a call of them is meant to fail
	Mode       uint8    // for which missing keys: 0 for each, or 1 more than a value of Options.MissingKey
	Memory     uint     // how many bytes of memory the library may take; 0 for any
}

// Finding is what a check over a JSON Schema found, and where.
type Finding struct {
	File   string `json:"file"`
	Line   int    `json:"line"` // from 1, as columns, which count characters
	Column int    `json:"column"`
	Level  string `json:"level"` // "error" or "warning"
	Rule   string `json:"rule"`
	Text   string `json:"text"`
	Note   string `json:"note"` // a counterexample, where one is found
}

// CheckSchema reports what tmpl-check finds with --schema: every error in the files; where there is none, what of the schema is not
// understood; else each place at which the template may fail over data of the schema; and warnings. Where none has the level "error", the
// template fails over no data that conform, but by limits and stops.
func CheckSchema(files []File, question Question) ([]Finding, error) {
	array := filesOf(files)
	defer freeFiles(array, len(files))
	if question.SchemaName == "" {
		question.SchemaName = "schema"
	}
	asked := (*C.tmpl_question)(C.calloc(1, C.size_t(unsafe.Sizeof(C.tmpl_question{}))))
	defer C.free(unsafe.Pointer(asked))
	asked.schema = fileOf(File{question.SchemaName, question.Schema})
	defer freed(asked.schema)
	asked.name, asked.name_size = copied([]byte(question.Name)), C.size_t(len(question.Name))
	defer C.free(unsafe.Pointer(asked.name))
	stops := (*C.tmpl_name)(C.malloc(C.size_t(len(question.Stops)+1) * C.size_t(unsafe.Sizeof(C.tmpl_name{}))))
	defer C.free(unsafe.Pointer(stops))
	for number, stop := range question.Stops {
		name := copied([]byte(stop))
		defer C.free(unsafe.Pointer(name))
		unsafe.Slice(stops, len(question.Stops))[number] = C.tmpl_name{bytes: name, size: C.size_t(len(stop))}
	}
	asked.stops, asked.stop_count = stops, C.size_t(len(question.Stops))
	asked.mode, asked.format = C.uint8_t(question.Mode), asJSON
	var text C.tmpl_text
	defer C.tmpl_text_free(&text)
	err := within(question.Memory, func() error {
		return ended(C.tmpl_check_schema(array, C.size_t(len(files)), asked, &text), []byte("tmpl: a name is not UTF-8"))
	})
	if of, is := err.(*Error); err != nil && (!is || of.Status != notAccepted) {
		return nil, err
	}
	var found struct{ Problems []Finding }
	err = json.Unmarshal(bytesOf(&text), &found)
	return found.Problems, err
}

// accepted makes a call that says a line, and makes it again with more memory where the line does not fit.
func accepted(call func(err *C.tmpl_buffer) C.uint8_t) error {
	for size := C.size_t(line); ; {
		err := C.tmpl_buffer{bytes: (*C.char)(C.malloc(size)), size: size}
		status := call(&err)
		said := C.GoBytes(unsafe.Pointer(err.bytes), C.int(err.taken))
		C.free(unsafe.Pointer(err.bytes))
		if err.needed <= size {
			return ended(status, said)
		}
		size = err.needed
	}
}

// bytesOf is a text of the library, which may be longer than what a C.int counts. It lies there until the next call.
func bytesOf(text *C.tmpl_text) []byte {
	return unsafe.Slice((*byte)(unsafe.Pointer(text.bytes)), int(text.size))
}

// Render writes the text of the template of this name to w. Without data pass no bytes. The error is an *Error, ErrMemory, or that of w.
func Render(w io.Writer, files []File, name string, data []byte, options Options) error {
	var templates Templates
	defer templates.Close()
	memory := options.Memory
	options.Memory = 0
	return within(memory, func() error {
		for _, file := range files {
			if err := templates.add(file, memory); err != nil {
				return err
			}
		}
		return templates.Execute(w, name, data, options)
	})
}

// Templates are template files that are parsed once. Any number of goroutines may use one at the same time, and no render waits for
// another one. Data is read anew where it differs from that of a render before. The zero value has no templates. Do not copy it after
// its first call.
type Templates struct {
	mutex   sync.Mutex // of all that is here, but held during no render
	set     C.tmpl_set
	program C.tmpl_program
	idle    []*worker
	version int  // how often there were other templates
	isMade  bool // whether program is that of set
	isOpen  bool // whether a finalizer frees it
}

// worker is what one render at a time needs: a handle of the program, data, and two texts, which are used again.
type worker struct {
	program    C.tmpl_program
	data       C.tmpl_data
	text, line C.tmpl_text
	version    int
	isRead     bool   // whether data is what read says
	read       []byte // the data of a render before
}

func (w *worker) free() {
	C.tmpl_program_free(&w.program)
	C.tmpl_data_free(&w.data)
	C.tmpl_text_free(&w.text)
	C.tmpl_text_free(&w.line)
}

func (w *worker) readAnew(data []byte) error {
	input := copied(data)
	defer C.free(unsafe.Pointer(input))
	w.isRead = false
	err := accepted(func(err *C.tmpl_buffer) C.uint8_t { return C.tmpl_data_read(&w.data, input, C.size_t(len(data)), err) })
	if err == nil {
		w.isRead, w.read = true, append(w.read[:0], data...)
	}
	return err
}

// execute renders once, and writes the text.
func (w *worker) execute(to io.Writer, name string, data []byte, options Options) error {
	if !w.isRead || !bytes.Equal(data, w.read) {
		if err := w.readAnew(data); err != nil {
			return err
		}
	}
	settings, template := settingsOf(options), copied([]byte(name))
	defer C.free(unsafe.Pointer(template))
	defer C.free(unsafe.Pointer(settings.writes))
	status := C.tmpl_render_text(&settings, &w.program, &w.data, template, C.size_t(len(name)), &w.text, &w.line)
	_, err := to.Write(bytesOf(&w.text))
	if w.text.size > kept {
		C.tmpl_text_free(&w.text)
	}
	if err != nil {
		return err
	}
	return ended(status, bytesOf(&w.line))
}

// renew frees what renders the templates that were there. The mutex is locked.
func (t *Templates) renew() {
	for _, it := range t.idle {
		it.free()
	}
	t.idle, t.isMade = nil, false
	t.version++
}

// open sees to it that what is kept is freed with t. The mutex is locked.
func (t *Templates) open() {
	if !t.isOpen {
		t.isOpen = true
		runtime.SetFinalizer(t, (*Templates).Close)
	}
}

// Add adds the templates of a file, after those of earlier files. Where there is an error, an *Error, they are as they were.
func (t *Templates) Add(file File) error {
	return t.AddWithin(0, file)
}

// AddWithin does so in at most this many bytes of memory, or any number for 0. Where it needs more, the error is ErrMemory.
func (t *Templates) AddWithin(memory uint, file File) error {
	return within(memory, func() error { return t.add(file, memory) })
}

func (t *Templates) add(file File, memory uint) error {
	t.mutex.Lock()
	defer t.mutex.Unlock()
	t.open()
	held := fileOf(file)
	defer freed(held)
	err := accepted(func(err *C.tmpl_buffer) C.uint8_t { return C.tmpl_set_add(&t.set, &held, err) })
	if err == nil {
		t.renew()
	} else if of, is := err.(*Error); is && of.Status == notAccepted {
		of.refused = &refusal{file: File{Name: file.Name, Bytes: append([]byte(nil), file.Bytes...)}, memory: memory}
	}
	return err
}

// take gives what no other render uses.
func (t *Templates) take() (*worker, error) {
	t.mutex.Lock()
	defer t.mutex.Unlock()
	t.open()
	if last := len(t.idle) - 1; last >= 0 {
		it := t.idle[last]
		t.idle = t.idle[:last]
		return it, nil
	}
	if !t.isMade && C.tmpl_program_make(&t.set, &t.program) != 0 {
		return nil, ErrMemory
	}
	t.isMade = true
	it := &worker{version: t.version}
	if C.tmpl_program_share(&t.program, &it.program) != 0 {
		return nil, ErrMemory
	}
	return it, nil
}

// give takes it back, unless it renders what was there before.
func (t *Templates) give(it *worker) {
	t.mutex.Lock()
	defer t.mutex.Unlock()
	if it.version == t.version {
		t.idle = append(t.idle, it)
	} else {
		it.free()
	}
}

// print writes the printed set.
func (t *Templates) print(w io.Writer) error {
	var text C.tmpl_text
	defer C.tmpl_text_free(&text)
	t.mutex.Lock()
	status := C.tmpl_set_print(&t.set, &text)
	t.mutex.Unlock()
	if _, err := w.Write(bytesOf(&text)); err != nil {
		return err
	}
	return ended(status, nil)
}

// Execute writes the text of the template of this name to w, as Render does.
func (t *Templates) Execute(w io.Writer, name string, data []byte, options Options) error {
	return within(options.Memory, func() error {
		if options.Print {
			return t.print(w)
		}
		it, err := t.take()
		if err != nil {
			return err
		}
		defer t.give(it)
		return it.execute(w, name, data, options)
	})
}

// Close gives back what t keeps, at once. It has no templates then.
func (t *Templates) Close() {
	t.mutex.Lock()
	defer t.mutex.Unlock()
	t.renew()
	C.tmpl_set_free(&t.set)
	C.tmpl_program_free(&t.program)
	t.isOpen = false
	runtime.SetFinalizer(t, nil)
}
