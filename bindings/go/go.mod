module tmpl

go 1.17
