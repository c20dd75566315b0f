//! The crate over the library: texts, errors, and memory that is too small.
use tmpl::{render, render_into, Extent, Settings};

const HELLO: &[(&str, &[u8])] = &[("hello.tmpl", b"Hello, {{.name}}!")];

#[test]
fn renders() {
    let text = render(HELLO, "hello.tmpl", br#"{"name": "Ada"}"#, &Settings::default());
    assert_eq!(text.as_deref(), Ok(b"Hello, Ada!".as_slice()));
}

#[test]
fn renders_more_than_is_lent_first() {
    let files: &[(&str, &[u8])] = &[("m", b"{{range 100000}}{{printf \"%6d\" .}}{{end}}")];
    let text = render(files, "m", b"", &Settings::default()).unwrap();
    let wanted: String = (0..100_000).map(|number| format!("{number:6}")).collect();
    assert_eq!(text, wanted.into_bytes());
}

#[test]
fn tells_a_fault() {
    let files: &[(&str, &[u8])] = &[("m", b"before {{.a.b}}")];
    let error = render(files, "m", br#"{"a": 1}"#, &Settings::default()).unwrap_err();
    assert_eq!(error.status, 1);
    assert_eq!(error.to_string(), "tmpl: m:1: in \"m\": no field \"b\" here");
    assert_eq!(error.text, b"before ");
}

#[test]
fn takes_settings() {
    let settings = Settings { missing_key: 3, ..Settings::default() };
    let error = render(HELLO, "hello.tmpl", b"{}", &settings).unwrap_err();
    assert_eq!(error.line, "tmpl: hello.tmpl:1: in \"hello.tmpl\": no entry for key \"name\"\n");
    let printed = render(HELLO, "", b"", &Settings { print: 1, ..Settings::default() }).unwrap();
    assert_eq!(printed, b"{{define \"hello.tmpl\"}}Hello, {{.name}}!{{end}}\n");
}

#[test]
fn tells_the_room_that_is_needed() {
    let (mut out, mut line) = ([0; 4], [0; 0]);
    let (status, text, said) = render_into(HELLO, "hello.tmpl", br#"{"name": "Ada"}"#, &Settings::default(), &mut out, &mut line);
    assert_eq!((status, text, said), (6, Extent { taken: 4, needed: 11 }, Extent { taken: 0, needed: 19 }));
    assert_eq!(&out, b"Hell");
}

#[test]
fn renders_nothing_of_nothing() {
    assert_eq!(render(&[("m", b"")], "m", b"", &Settings::default()), Ok(Vec::new()));
    assert_eq!(render(&[], "", b"", &Settings::default()).unwrap_err().status, 4);
}

#[test]
fn templates() {
    let pages = tmpl::Templates::new();
    let settings = tmpl::Settings::default();
    pages.add("m", b"{{.n}} and {{.k}}").unwrap();
    let refused = pages.add("n", b"{{").unwrap_err();
    assert_eq!(refused.to_string(), "tmpl: n:1: unclosed or unreadable action");
    assert_eq!(pages.render("m", b"[1.5]", &settings).unwrap_err().status, 5);
    assert_eq!(pages.render("m", b"{\"n\": 1}", &settings).unwrap(), b"1 and <no value>");
    let printed = tmpl::Settings { print: 1, ..settings };
    assert_eq!(pages.render("", b"", &printed).unwrap(), b"{{define \"m\"}}{{.n}} and {{.k}}{{end}}\n");
    pages.add("long", b"{{range 100000}}0123456789{{end}}").unwrap();
    assert_eq!(pages.render("long", b"", &settings).unwrap(), b"0123456789".repeat(100_000));
}

// 8 threads over one set, each with data of its own
#[test]
fn threads() {
    let pages = tmpl::Templates::new();
    pages.add("m", b"{{.n}} and {{.k}}").unwrap();
    std::thread::scope(|scope| {
        for n in 0..8 {
            let pages = &pages;
            scope.spawn(move || {
                for k in 0..12_500 {
                    let data = format!("{{\"n\": {n}, \"k\": {k}}}");
                    let text = pages.render("m", data.as_bytes(), &tmpl::Settings::default()).unwrap();
                    assert_eq!(text, format!("{n} and {k}").as_bytes());
                }
            });
        }
    });
}

// kilobytes that the process has
fn resident() -> usize {
    let told = std::fs::read_to_string("/proc/self/statm").unwrap();
    told.split(' ').nth(1).unwrap().parse::<usize>().unwrap() * 4
}

// kilobytes by which the process grows by as many renders
fn growth(pages: &tmpl::Templates, renders: usize) -> usize {
    let before = resident();
    for k in 0..renders {
        let data = format!("{{\"n\": 1, \"k\": {k}}}");
        pages.render("m", data.as_bytes(), &tmpl::Settings::default()).unwrap();
    }
    resident().saturating_sub(before)
}

#[test]
fn memory() {
    let pages = tmpl::Templates::new();
    pages.add("m", b"{{.n}} and {{.k}}").unwrap();
    growth(&pages, 10_000);
    // other tests run at the same time: what stays of each render would show three times
    let least = (0..3).map(|_| growth(&pages, 100_000)).min().unwrap();
    assert!(least < 1024, "{least} kB more");
}

// files are added while others render: each render is of what was there before or after
#[test]
fn files_added_meanwhile() {
    let pages = tmpl::Templates::new();
    pages.add("m", b"{{.}} 0").unwrap();
    std::thread::scope(|scope| {
        for n in 0..4 {
            let pages = &pages;
            scope.spawn(move || {
                for k in 0..2_000 {
                    let data = format!("{}", n * 2_000 + k);
                    let text = String::from_utf8(pages.render("m", data.as_bytes(), &tmpl::Settings::default()).unwrap()).unwrap();
                    let (value, file) = text.split_once(' ').unwrap();
                    assert!(value == data && file.parse::<u32>().unwrap() <= 50, "{text}");
                }
            });
        }
        for file in 1..=50 {
            pages.add("n", format!("{{{{define \"m\"}}}}{{{{.}}}} {file}{{{{end}}}}").as_bytes()).unwrap();
        }
    });
    assert_eq!(pages.render("m", b"1", &tmpl::Settings::default()).unwrap(), b"1 50");
}

#[test]
fn checks_over_a_schema() {
    let schema: &[u8] = br#"{"type": "object", "properties": {"a": {"type": "string"}}, "required": ["a"]}"#;
    let question = tmpl::Question { schema, schema_name: "s", stops: &["stop"], ..Default::default() };
    let safe = tmpl::check_schema(&[("m", b"{{if .a}}{{len .a}}{{else}}{{template `stop`}}{{end}}")], &question).unwrap();
    assert!(safe.is_safe);
    let unsafe_ = tmpl::check_schema(&[("m", b"{{len .b}}")], &question).unwrap();
    assert!(!unsafe_.is_safe && unsafe_.findings.starts_with("m:1:1: error: may fail: .b may be absent: "), "{unsafe_:?}");
    let json = tmpl::check_schema(&[("m", b"{{len .b}}")], &tmpl::Question { format: tmpl::Format::Json, ..question }).unwrap();
    assert!(json.findings.starts_with("{\"problems\":[\n{\"file\":\"m\",\"line\":1,\"column\":1,\"level\":\"error\""), "{json:?}");
}

#[test]
fn checks() {
    let mistake = "error: action not understood: no function \"name\": write .name";
    let files: &[(&str, &[u8])] = &[("a", b"{{name}}"), ("b", b"text"), ("c", b"\n{{name}}")];
    let lines = |found: Vec<tmpl::Problem>| found.iter().map(|it| it.to_string()).collect::<Vec<_>>();
    assert_eq!(lines(tmpl::check(files, tmpl::MOST).unwrap()), [format!("a:1:1: {mistake}"), format!("c:2:1: {mistake}")]);
    assert_eq!(tmpl::check(files, 1).unwrap().len(), 1);
    assert_eq!(tmpl::check(&files[1..2], tmpl::MOST), Ok(Vec::new()));
    assert_eq!(tmpl::check(&[], tmpl::MOST), Ok(Vec::new()));
    let odd = "b:1:1: error: out of place: c";
    let found = tmpl::check(&[("a", b""), (odd, b"\n {{if 1}}")], tmpl::MOST).unwrap().remove(0);
    assert_eq!((found.file.as_str(), found.line, found.rule), (odd, 2, "open-at-end"));
    let error = render(files, "a", b"", &Settings::default()).unwrap_err();
    assert_eq!((error.status, error.place(), lines(error.problems())), (4, Some(("a", 1)), vec![format!("a:1:1: {mistake}")]));
    let none = render(&files[1..2], "z", b"", &Settings::default()).unwrap_err();
    assert_eq!((none.place(), none.problems()), (None, Vec::new()));
    let fault = render(&[("p:1: q", b"\n{{len 1}}")], "p:1: q", b"", &Settings::default()).unwrap_err();
    assert_eq!((fault.status, fault.place()), (1, Some(("p:1: q", 2))));
}

#[test]
fn keeps_limits() {
    let files: &[(&str, &[u8])] = &[("m", b"{{range 100000}}0123456789{{end}}")];
    let settings = Settings { output: 12, ..Settings::default() };
    let error = render(files, "m", b"", &settings).unwrap_err();
    assert_eq!((error.status, error.line.as_str(), error.text), (6, "tmpl: more than 12 bytes of output\n", b"012345678901".to_vec()));
    let run = || render(files, "m", b"", &Settings::default());
    assert_eq!(tmpl::with_memory(1 << 16, run).unwrap_err().status, 7);
    assert_eq!(tmpl::with_memory(1 << 23, run).unwrap().len(), 1_000_000);
    assert_eq!(run().unwrap().len(), 1_000_000);
}
