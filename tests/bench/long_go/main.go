// Renders a text of as many times ten bytes as are asked for by the binding for Go, and tells how many bytes were written, and what
// went wrong.
package main

import (
	"fmt"
	"os"
	"strconv"

	"tmpl"
)

type counter struct{ bytes int64 }

func (c *counter) Write(piece []byte) (int, error) {
	c.bytes += int64(len(piece))
	return len(piece), nil
}

func main() {
	count, err := strconv.Atoi(os.Args[1])
	if err != nil {
		panic(err)
	}
	var pages tmpl.Templates
	defer pages.Close()
	text := fmt.Sprintf("{{range %d}}0123456789{{end}}", count)
	if err := pages.Add(tmpl.File{Name: "m", Bytes: []byte(text)}); err != nil {
		panic(err)
	}
	var out counter
	err = pages.Execute(&out, "m", nil, tmpl.Options{Steps: 1 << 40})
	fmt.Println(out.bytes, err)
}
