//! Templates of the language of Go's text/template over data in JSON, by the library of Rilphong.
use std::fmt;
use std::sync::{Mutex, MutexGuard, PoisonError};

/// A text of more bytes than these is given back after its render.
const KEPT: usize = 1 << 20;

/// How to run a template. The default is all zeros.
#[derive(Clone, Copy, Debug, Default)]
pub struct Settings<'a> {
    /// At most this many steps; 0 for 1,000,000,000.
    pub steps: u64,
    /// Calls of templates at most so deep; 0 for 1,000.
    pub depth: u32,
    /// What a missing key gives: 0 default, 1 invalid, 2 zero, 3 error.
    pub missing_key: u8,
    /// 1 to print the set, and run nothing.
    pub print: u8,
    /// At most this many bytes of text; 0 for any number. A text that is longer is status 6, with the bytes that come first.
    pub output: usize,
    /// The format of which the text has to be, as `json`, `yaml` or `csv:3`; empty for any. A text that is not is not given: status 8.
    pub writes: &'a str,
}

/// The settings as the library has them.
#[repr(C)]
struct RawSettings {
    size: usize,
    steps: u64,
    depth: u32,
    missing_key: u8,
    print: u8,
    output: usize,
    writes: *const u8,
    writes_size: usize,
}

fn raw_settings(settings: &Settings) -> RawSettings {
    let Settings { steps, depth, missing_key, print, output, writes } = *settings;
    RawSettings {
        size: std::mem::size_of::<RawSettings>(),
        steps,
        depth,
        missing_key,
        print,
        output,
        writes: writes.as_ptr(),
        writes_size: writes.len(),
    }
}

#[repr(C)]
struct RawFile {
    name: *const u8,
    name_size: usize,
    bytes: *const u8,
    size: usize,
}

#[repr(C)]
struct RawBuffer {
    bytes: *mut u8,
    size: usize,
    taken: usize,
    needed: usize,
}

#[repr(C)]
struct RawName {
    bytes: *const u8,
    size: usize,
}

#[repr(C)]
struct RawQuestion {
    schema: RawFile,
    name: *const u8,
    name_size: usize,
    stops: *const RawName,
    stop_count: usize,
    mode: u8,
    format: u8,
}

/// A set, a program, or data; null is an empty one.
#[repr(C)]
struct RawKept {
    held: *mut u8,
}

/// A text that the library owns.
#[repr(C)]
struct RawText {
    bytes: *const u8,
    size: usize,
    held: *mut u8,
}

#[rustfmt::skip]
extern "C" {
    fn tmpl_render(settings: *const RawSettings, files: *const RawFile, file_count: usize, name: *const u8, name_size: usize,
        data: *const u8, data_size: usize, out: *mut RawBuffer, err: *mut RawBuffer) -> u8;
    fn tmpl_check(files: *const RawFile, file_count: usize, most: usize, text: *mut RawText) -> u8;
    fn tmpl_check_schema(files: *const RawFile, file_count: usize, question: *const RawQuestion, text: *mut RawText) -> u8;
    fn tmpl_limit_memory(bytes: usize);
    fn tmpl_set_add(set: *mut RawKept, file: *const RawFile, err: *mut RawBuffer) -> u8;
    fn tmpl_data_read(data: *mut RawKept, bytes: *const u8, size: usize, err: *mut RawBuffer) -> u8;
    fn tmpl_set_print(set: *mut RawKept, text: *mut RawText) -> u8;
    fn tmpl_program_make(set: *mut RawKept, program: *mut RawKept) -> u8;
    fn tmpl_program_share(program: *mut RawKept, copy: *mut RawKept) -> u8;
    fn tmpl_render_text(settings: *const RawSettings, program: *mut RawKept, data: *mut RawKept, name: *const u8, name_size: usize,
        text: *mut RawText, line: *mut RawText) -> u8;
    fn tmpl_set_free(set: *mut RawKept);
    fn tmpl_program_free(program: *mut RawKept);
    fn tmpl_data_free(data: *mut RawKept);
    fn tmpl_text_free(text: *mut RawText);
}

fn raw_file(name: &str, bytes: &[u8]) -> RawFile {
    RawFile { name: name.as_ptr(), name_size: name.len(), bytes: bytes.as_ptr(), size: bytes.len() }
}

fn raw_buffer(memory: &mut [u8]) -> RawBuffer {
    RawBuffer { bytes: memory.as_mut_ptr(), size: memory.len(), taken: 0, needed: 0 }
}

/// How many problems of a file are kept where nothing else is said.
pub const MOST: usize = 1_000;

/// The rules of `tmpl-check`, by the reason for which a file is refused.
const RULES: [(&str, &str); 9] = [
    ("unclosed or unreadable action", "unreadable"),
    ("action not understood", "not-understood"),
    ("out of place", "out-of-place"),
    ("undeclared variable", "undeclared-variable"),
    ("file ends inside a control", "open-at-end"),
    ("nested too deeply", "nested-too-deeply"),
    ("file longer than 16777216 bytes", "too-long"),
    ("second definition", "second-definition"),
    ("too many errors", "too-many-errors"),
];

/// An error in a template file, and where it is. It displays as a line as compilers write it: `FILE:LINE:COLUMN: error: TEXT`.
#[derive(Clone, Debug, PartialEq, Eq)]
pub struct Problem {
    /// The path of the file, as a line shows it: control characters by their codes.
    pub file: String,
    /// From 1, as columns, which count characters.
    pub line: u64,
    pub column: u64,
    /// As `tmpl-check --format json` names it.
    pub rule: &'static str,
    /// The reason, as the command has it, what is wrong, and what to write instead where that is known.
    pub text: String,
}

impl fmt::Display for Problem {
    fn fmt(&self, f: &mut fmt::Formatter<'_>) -> fmt::Result {
        write!(f, "{}:{}:{}: error: {}", self.file, self.line, self.column, self.text)
    }
}

/// The number at the end of a text, after a colon, and what stands before that.
fn number_at_end(text: &str) -> Option<(&str, u64)> {
    let (before, digits) = text.rsplit_once(':')?;
    let is_number = !digits.is_empty() && digits.bytes().all(|it| it.is_ascii_digit());
    is_number.then_some(())?;
    Some((before, digits.parse().ok()?))
}

/// The rule of a reason, with or without what is wrong after it.
fn rule_of(text: &str) -> Option<&'static str> {
    let is_of = |reason: &str| text.strip_prefix(reason).is_some_and(|rest| rest.is_empty() || rest.starts_with(": "));
    RULES.iter().find(|(reason, _)| is_of(reason)).map(|(_, rule)| *rule)
}

/// A line of a check of these files, taken apart. What looks like a place in a name of one of them is none.
fn problem_in(line: &str, files: &[(&str, &[u8])]) -> Problem {
    let starts = |name: &&str| line.strip_prefix(*name).is_some_and(|rest| rest.starts_with(':'));
    let from = files.iter().map(|(path, _)| *path).filter(starts).map(str::len).max().unwrap_or(0);
    let parts = |at: usize| {
        let text = &line[at + ": error: ".len()..];
        let (before, column) = number_at_end(&line[..at])?;
        let (file, number) = number_at_end(before)?;
        Some(Problem { file: file.to_string(), line: number, column, rule: rule_of(text)?, text: text.to_string() })
    };
    let marks = line[from..].match_indices(": error: ").map(|(at, _)| from + at);
    marks.filter(|at| line.is_char_boundary(*at)).find_map(parts).unwrap_or(Problem { file: String::new(), line: 0, column: 0, rule: "", text: line.to_string() })
}

/// A render that failed: the exit status of the command, its line, and the text before a fault.
#[derive(Clone, Debug, PartialEq, Eq)]
pub struct Error {
    pub status: u8,
    pub line: String,
    pub text: Vec<u8>,
    /// The file that was refused.
    refused: Option<(String, Vec<u8>)>,
}

impl Error {
    /// The first 1,000 errors of the file that was refused, if one was. They are looked for at each call; the file is kept until then.
    pub fn problems(&self) -> Vec<Problem> {
        match &self.refused {
            Some((path, bytes)) => check(&[(path, bytes)], MOST).unwrap_or_default(),
            None => Vec::new(),
        }
    }

    /// The path of the template file that the line names, and the line in it, from 1, where it names one.
    pub fn place(&self) -> Option<(&str, u64)> {
        let said = self.line.strip_prefix("tmpl: ")?;
        let mark = match self.status {
            1 => ": in \"",
            4 => ": ",
            _ => return None,
        };
        said.rmatch_indices(mark).find_map(|(at, _)| {
            let is_place = self.status == 4 || said[at + mark.len()..].contains("\": ");
            is_place.then(|| number_at_end(&said[..at])).flatten()
        })
    }
}

impl fmt::Display for Error {
    fn fmt(&self, f: &mut fmt::Formatter<'_>) -> fmt::Result {
        f.write_str(self.line.trim_end())
    }
}

impl std::error::Error for Error {}

/// How much output a buffer holds, and how much there is.
#[derive(Clone, Copy, Debug, PartialEq, Eq)]
pub struct Extent {
    pub taken: usize,
    pub needed: usize,
}

/// Renders into a buffer: the status, and the extents of the text and of the line. No data is data of no bytes.
pub fn render_into(
    files: &[(&str, &[u8])], name: &str, data: &[u8], settings: &Settings, out: &mut [u8], line: &mut [u8],
) -> (u8, Extent, Extent) {
    let array: Vec<RawFile> = files.iter().map(|(path, bytes)| raw_file(path, bytes)).collect();
    let (mut o, mut e) = (raw_buffer(out), raw_buffer(line));
    // SAFETY: each pointer and size are those of one slice, which is borrowed for the call; `out` and `line` are borrowed by it alone.
    let status = unsafe {
        tmpl_render(&raw_settings(settings), array.as_ptr(), array.len(), name.as_ptr(), name.len(), data.as_ptr(), data.len(), &mut o, &mut e)
    };
    (status, Extent { taken: o.taken, needed: o.needed }, Extent { taken: e.taken, needed: e.needed })
}

/// How a call ended: an error with the status and the line, but where all went well.
fn ended(status: u8, line: &[u8], text: Vec<u8>) -> Result<Vec<u8>, Error> {
    let line = match status {
        0 => return Ok(text),
        7 => "tmpl: out of memory\n".to_string(),
        _ => String::from_utf8_lossy(line).into_owned(),
    };
    Err(Error { status, line, text, refused: None })
}

/// The errors in template files, with what to write instead where that is known: the first `most` of them. There are none where all files
/// are accepted, one after the other.
pub fn check(files: &[(&str, &[u8])], most: usize) -> Result<Vec<Problem>, Error> {
    let array: Vec<RawFile> = files.iter().map(|(path, bytes)| raw_file(path, bytes)).collect();
    let mut text = RawText::EMPTY;
    // SAFETY: each pointer and size are those of one slice, which is borrowed for the call, and no other call has the handle.
    let status = unsafe { tmpl_check(array.as_ptr(), array.len(), most, &mut text) };
    if status != 4 {
        ended(status, b"tmpl: the name of a file is not UTF-8\n", Vec::new())?;
    }
    let lines = String::from_utf8_lossy(text.as_slice());
    Ok(lines.split_terminator('\n').take(most).map(|line| problem_in(line, files)).collect())
}

/// The form of findings.
#[derive(Clone, Copy, Debug, Default, PartialEq, Eq)]
pub enum Format {
    /// A line for each finding, and one for its note, as compilers write them.
    #[default]
    Lines,
    /// An object of JSON.
    Json,
    /// A log of SARIF 2.1.0.
    Sarif,
}

/// What a template is asked over a JSON Schema.
#[derive(Clone, Copy, Debug, Default)]
pub struct Question<'a> {
    pub schema: &'a [u8],
    /// The name by which findings call the schema.
    pub schema_name: &'a str,
    /// The template that is rendered; the first file's own where it is empty.
    pub name: &'a str,
    /// Templates that may be missing, since a call of them is meant to fail.
    pub stops: &'a [&'a str],
    /// For which missing keys: 0 for each, or one more than a value of `Settings::missing_key`.
    pub mode: u8,
    pub format: Format,
}

/// What a check over a JSON Schema comes to.
#[derive(Clone, Debug, PartialEq, Eq)]
pub struct Verdict {
    /// Whether there is no error: then the template fails over no data that conform, but by limits and stops.
    pub is_safe: bool,
    /// The findings, in the form that was asked for.
    pub findings: String,
}

/// Reports what `tmpl-check` finds with `--schema`: every error in the files; where there is none, what of the schema is not understood; else
/// each place at which the template may fail over data of the schema, with a counterexample where one is found; and warnings.
pub fn check_schema(files: &[(&str, &[u8])], question: &Question<'_>) -> Result<Verdict, Error> {
    let array: Vec<RawFile> = files.iter().map(|(path, bytes)| raw_file(path, bytes)).collect();
    let stops: Vec<RawName> = question.stops.iter().map(|it| RawName { bytes: it.as_ptr(), size: it.len() }).collect();
    let asked = RawQuestion {
        schema: raw_file(question.schema_name, question.schema),
        name: question.name.as_ptr(),
        name_size: question.name.len(),
        stops: stops.as_ptr(),
        stop_count: stops.len(),
        mode: question.mode,
        format: question.format as u8,
    };
    let mut text = RawText::EMPTY;
    // SAFETY: each pointer and size are those of one slice, which is borrowed for the call, and no other call has the handle.
    let status = unsafe { tmpl_check_schema(array.as_ptr(), array.len(), &asked, &mut text) };
    if status != 4 {
        ended(status, b"tmpl: a name is not UTF-8\n", Vec::new())?;
    }
    Ok(Verdict { is_safe: status == 0, findings: String::from_utf8_lossy(&text.to_vec()).into_owned() })
}

/// Gives what this gives, while the library may take at most this many bytes of memory for this thread, beyond those that it gives back; where
/// a call needs more, it ends as where the system has no more, with status 7. Not to be called inside another one.
pub fn with_memory<T>(bytes: usize, call: impl FnOnce() -> T) -> T {
    struct Limited;
    impl Drop for Limited {
        fn drop(&mut self) {
            // SAFETY: it is always fine to call it.
            unsafe { tmpl_limit_memory(0) }
        }
    }
    let _limited = Limited;
    // SAFETY: as above.
    unsafe { tmpl_limit_memory(bytes) };
    call()
}

/// Makes a call that says a line, and makes it again with more memory where the line does not fit.
fn accepted(mut call: impl FnMut(&mut RawBuffer) -> u8) -> Result<(), Error> {
    let mut line = vec![0; 1 << 12];
    loop {
        let mut err = raw_buffer(&mut line);
        let status = call(&mut err);
        let (taken, needed) = (err.taken, err.needed);
        if needed <= line.len() {
            return ended(status, &line[..taken], Vec::new()).map(drop);
        }
        line.resize(needed, 0);
    }
}

/// The text of the template of this name of the files.
pub fn render(files: &[(&str, &[u8])], name: &str, data: &[u8], settings: &Settings) -> Result<Vec<u8>, Error> {
    let templates = Templates::new();
    for (path, bytes) in files {
        templates.add(path, bytes)?;
    }
    templates.render(name, data, settings)
}

impl RawKept {
    const EMPTY: RawKept = RawKept { held: std::ptr::null_mut() };
}

impl RawText {
    const EMPTY: RawText = RawText { bytes: std::ptr::null(), size: 0, held: std::ptr::null_mut() };

    fn as_slice(&self) -> &[u8] {
        match self.size {
            0 => &[],
            // SAFETY: the library has that many bytes there until its next call, which takes the text by `&mut`.
            size => unsafe { std::slice::from_raw_parts(self.bytes, size) },
        }
    }

    fn to_vec(&self) -> Vec<u8> {
        self.as_slice().to_vec()
    }
}

impl Drop for RawText {
    fn drop(&mut self) {
        // SAFETY: it is what the library made, or empty.
        unsafe { tmpl_text_free(self) }
    }
}

/// What one render at a time needs: a handle of the program, data, and two texts, which are used again.
struct Worker {
    program: RawKept,
    data: RawKept,
    text: RawText,
    line: RawText,
    version: u64,
    read: Option<Vec<u8>>, // the data of a render before
}

// SAFETY: a handle is memory of the heap alone, and goes from thread to thread under the lock of its `Templates`.
unsafe impl Send for Worker {}

impl Drop for Worker {
    fn drop(&mut self) {
        // SAFETY: both are what the library made, or empty.
        unsafe {
            tmpl_program_free(&mut self.program);
            tmpl_data_free(&mut self.data);
        }
    }
}

impl Worker {
    fn read(&mut self, data: &[u8]) -> Result<(), Error> {
        if self.read.as_deref() == Some(data) {
            return Ok(());
        }
        self.read = None;
        let kept = &mut self.data;
        // SAFETY: each pointer and size are those of one slice, which is borrowed for the call.
        accepted(|err| unsafe { tmpl_data_read(kept, data.as_ptr(), data.len(), err) })?;
        self.read = Some(data.to_vec());
        Ok(())
    }

    fn render(&mut self, name: &str, data: &[u8], settings: &Settings) -> Result<Vec<u8>, Error> {
        self.read(data)?;
        let settings_here = raw_settings(settings);
        // SAFETY: the handles are four, no other call has them, and the name and the settings are borrowed for the call.
        let status = unsafe {
            tmpl_render_text(&settings_here, &mut self.program, &mut self.data, name.as_ptr(), name.len(), &mut self.text, &mut self.line)
        };
        let text = self.text.to_vec();
        if text.len() > KEPT {
            self.text = RawText::EMPTY;
        }
        ended(status, self.line.as_slice(), text)
    }
}

/// Template files that are parsed once. Any number of threads may use one at the same time, and no render waits for another one. Data is
/// read anew where it differs from that of a render before.
pub struct Templates {
    kept: Mutex<Kept>, // held during no render
}

struct Kept {
    set: RawKept,
    program: RawKept,
    idle: Vec<Box<Worker>>,
    version: u64,  // how often there were other templates
    is_made: bool, // whether the program is that of the set
}

// SAFETY: as that of a worker.
unsafe impl Send for Kept {}

impl Drop for Kept {
    fn drop(&mut self) {
        // SAFETY: both are what the library made, or empty.
        unsafe {
            tmpl_set_free(&mut self.set);
            tmpl_program_free(&mut self.program);
        }
    }
}

impl Kept {
    /// What no other render uses.
    fn take(&mut self) -> Result<Box<Worker>, Error> {
        if let Some(worker) = self.idle.pop() {
            return Ok(worker);
        }
        if !self.is_made {
            // SAFETY: the handles are two, and no other call has them.
            ended(unsafe { tmpl_program_make(&mut self.set, &mut self.program) }, b"", Vec::new())?;
            self.is_made = true;
        }
        let (text, line) = (RawText::EMPTY, RawText::EMPTY);
        let (version, program, data) = (self.version, RawKept::EMPTY, RawKept::EMPTY);
        let mut worker = Box::new(Worker { program, data, text, line, version, read: None });
        // SAFETY: the handles are two, and no other call has them.
        ended(unsafe { tmpl_program_share(&mut self.program, &mut worker.program) }, b"", Vec::new())?;
        Ok(worker)
    }

    /// Takes it back, unless it renders what was there before.
    fn give(&mut self, worker: Box<Worker>) {
        if worker.version == self.version {
            self.idle.push(worker);
        }
    }
}

impl Templates {
    /// No templates, and no data.
    pub fn new() -> Templates {
        let (set, program) = (RawKept::EMPTY, RawKept::EMPTY);
        Templates { kept: Mutex::new(Kept { set, program, idle: Vec::new(), version: 0, is_made: false }) }
    }

    // no call of the library panics, so what is kept is whole also where a thread that held it did
    fn kept(&self) -> MutexGuard<'_, Kept> {
        self.kept.lock().unwrap_or_else(PoisonError::into_inner)
    }

    /// Adds the templates of a file, after those of earlier files. Where there is an error, they are as they were.
    pub fn add(&self, path: &str, bytes: &[u8]) -> Result<(), Error> {
        let mut kept = self.kept();
        let file = raw_file(path, bytes);
        // SAFETY: the file is borrowed for the call.
        accepted(|err| unsafe { tmpl_set_add(&mut kept.set, &file, err) }).map_err(|error| match error.status {
            4 => Error { refused: Some((path.to_string(), bytes.to_vec())), ..error },
            _ => error,
        })?;
        kept.idle.clear();
        kept.version += 1;
        kept.is_made = false;
        Ok(())
    }

    /// The text of the template of this name. No data is data of no bytes.
    pub fn render(&self, name: &str, data: &[u8], settings: &Settings) -> Result<Vec<u8>, Error> {
        if settings.print == 1 {
            return self.print();
        }
        let mut worker = self.kept().take()?;
        let text = worker.render(name, data, settings);
        self.kept().give(worker);
        text
    }

    fn print(&self) -> Result<Vec<u8>, Error> {
        let mut text = RawText::EMPTY;
        // SAFETY: the handles are two, and no other call has them.
        let status = unsafe { tmpl_set_print(&mut self.kept().set, &mut text) };
        ended(status, b"", text.to_vec())
    }
}

impl Default for Templates {
    fn default() -> Templates {
        Templates::new()
    }
}
