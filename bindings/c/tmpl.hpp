// tmpl for C++17: template files that are parsed once and data that is read once, over tmpl.h. A call that fails throws `tmpl::error`, and
// `std::bad_alloc` where memory runs out. Any number of threads may use one `templates` at the same time, and no render waits for another; nor
// do they change a `data`, which they share. Only destroy what was moved from, or assign to it.
#ifndef TMPL_HPP
#define TMPL_HPP

#include <algorithm>
#include <cstdlib>
#include <memory>
#include <mutex>
#include <new>
#include <stdexcept>
#include <string>
#include <string_view>
#include <utility>
#include <vector>

#include "tmpl.h"

namespace tmpl {

/// An error in a template file, and where it is.
struct problem {
    std::string file;            ///< its path, as a line shows it: control characters by their codes
    unsigned long line, column; ///< from 1; columns count characters
    std::string rule;            ///< as `tmpl-check --format json` names it
    std::string text;            ///< the reason, as the command has it, what is wrong, and what to write instead where that is known

    /// A line as compilers write it.
    std::string str() const { return file + ":" + std::to_string(line) + ":" + std::to_string(column) + ": error: " + text; }
};

/// Template files: pairs of a path and what the file holds.
using files = std::vector<std::pair<std::string_view, std::string_view>>;

inline std::vector<problem> check(const files &files, std::size_t most = 1000);

/// A call that failed. `what()` is the line of the command.
class error : public std::runtime_error {
    std::shared_ptr<const std::pair<std::string, std::string>> refused; // the file that is refused

public:
    int status;                ///< TMPL_FAULT, TMPL_NOT_TEXT, TMPL_REFUSED, TMPL_DATA, TMPL_FULL or TMPL_FORMAT
    std::string text;          ///< the text before the fault
    std::string file;          ///< the path of the template file that the line names, where it names one ..
    unsigned long line_number; ///< .. and the line there, from 1; else 0

    error(int status, const std::string &line, std::string text);

    /// Of a file that is refused, its first 1,000 errors. Each call looks for them.
    std::vector<problem> problems() const { return refused ? check({{refused->first, refused->second}}) : std::vector<problem>(); }

    void bear(std::string_view path, std::string_view bytes) {
        refused = std::make_shared<const std::pair<std::string, std::string>>(path, bytes);
    }
};

namespace inside {

// no pointer may be null, also where its size is 0
inline const char *start(std::string_view it) { return it.data() != nullptr ? it.data() : ""; }
inline std::string copied(const tmpl_text &it) { return it.size != 0 ? std::string(it.bytes, it.size) : std::string(); }

inline void judge(int status, const std::string &line = {}, std::string text = {}) {
    if (status == TMPL_MEMORY) throw std::bad_alloc();
    if (status != TMPL_OK) throw error(status, line.substr(0, line.find_last_not_of('\n') + 1), std::move(text));
}

// the number that ends just before this place, after a colon: where the colon stands, or npos
inline std::size_t number_before(const std::string &line, std::size_t end, unsigned long &number) {
    const std::size_t colon = end == 0 ? line.npos : line.find_last_not_of("0123456789", end - 1);
    if (colon == line.npos || line[colon] != ':' || colon + 1 == end) return line.npos;
    number = std::strtoul(line.c_str() + colon + 1, nullptr, 10);
    return colon;
}

// the rules of tmpl-check, by the reason for which a file is refused
inline const char *rule_of(std::string_view text) {
    static const std::pair<std::string_view, const char *> rules[] = {
        {"unclosed or unreadable action", "unreadable"},
        {"action not understood", "not-understood"},
        {"out of place", "out-of-place"},
        {"undeclared variable", "undeclared-variable"},
        {"file ends inside a control", "open-at-end"},
        {"nested too deeply", "nested-too-deeply"},
        {"file longer than 16777216 bytes", "too-long"},
        {"second definition", "second-definition"},
        {"too many errors", "too-many-errors"},
    };
    for (const auto &[reason, rule] : rules) {
        const std::string_view rest = text.substr(std::min(reason.size(), text.size()));
        if (text.substr(0, reason.size()) == reason && (rest.empty() || rest.substr(0, 2) == ": ")) return rule;
    }
    return nullptr;
}

// a line of a check, taken apart: what looks like a place before this one is none
inline problem problem_in(const std::string &line, std::size_t from) {
    problem it{};
    static const std::string mark = ": error: ";
    for (std::size_t at = line.find(mark, from); at != line.npos; at = line.find(mark, at + 1)) {
        const std::size_t column = number_before(line, at, it.column);
        const std::size_t place = column == line.npos ? column : number_before(line, column, it.line);
        it.text = line.substr(at + mark.size());
        const char *rule = rule_of(it.text);
        if (place == line.npos || rule == nullptr) continue;
        return it.file = line.substr(0, place), it.rule = rule, it;
    }
    return problem{{}, 0, 0, {}, line};
}

// a call that says a line, which is made again with more memory where that does not fit
template <class Call> void accept(Call call) {
    for (std::string line(4096, '\0');; ) {
        tmpl_buffer err = {line.data(), line.size(), 0, 0};
        const int status = call(&err);
        if (err.needed <= line.size()) return judge(status, line.substr(0, err.taken));
        line.resize(err.needed);
    }
}

template <class T, void (*Free)(T *)> struct handle : T {
    handle() : T{} {}
    handle(const handle &) = delete;
    ~handle() { Free(this); }
};
using set = handle<tmpl_set, tmpl_set_free>;
using program = handle<tmpl_program, tmpl_program_free>;
using value = handle<tmpl_data, tmpl_data_free>;
using text = handle<tmpl_text, tmpl_text_free>;

inline tmpl_file file(std::string_view path, std::string_view bytes) { return {start(path), path.size(), start(bytes), bytes.size()}; }

} // namespace inside

inline error::error(int status, const std::string &line, std::string text)
    : runtime_error(line), status(status), text(std::move(text)), line_number(0) {
    const std::string mark = status == TMPL_FAULT ? ": in \"" : ": ", first = "tmpl: ";
    if (status != TMPL_FAULT && status != TMPL_REFUSED) return;
    for (std::size_t at = line.rfind(mark); at != line.npos && at > first.size(); at = line.rfind(mark, at - 1)) {
        const std::size_t place = inside::number_before(line, at, line_number);
        const bool is_named = status == TMPL_REFUSED || line.find("\": ", at + mark.size()) != line.npos;
        if (place == line.npos || place < first.size() || !is_named) continue;
        file = line.substr(first.size(), place - first.size());
        return;
    }
    line_number = 0;
}

/// The calls of the thread take at most this many bytes of memory together while it is there. They throw `std::bad_alloc` where they need more.
class memory_limit {
public:
    explicit memory_limit(std::size_t bytes) { tmpl_limit_memory(bytes); }
    memory_limit(const memory_limit &) = delete;
    memory_limit &operator=(const memory_limit &) = delete;
    ~memory_limit() { tmpl_limit_memory(0); }
};

/// The errors in template files, with what to write instead where that is known: the first `most` of them.
inline std::vector<problem> check(const files &files, std::size_t most) {
    std::vector<tmpl_file> lent;
    lent.reserve(files.size() + 1); // so that its pointer is not null
    for (const auto &[path, bytes] : files) lent.push_back(inside::file(path, bytes));
    inside::text text;
    const int status = tmpl_check(lent.data(), lent.size(), most, &text);
    if (status != TMPL_REFUSED) inside::judge(status, "tmpl: the name of a file is not UTF-8\n");
    std::vector<problem> found;
    const std::string_view all(text.bytes != nullptr ? text.bytes : "", text.size);
    for (std::size_t from = 0, to; found.size() < most && (to = all.find('\n', from)) != all.npos; from = to + 1) {
        const std::string line(all.substr(from, to - from));
        std::size_t name = 0;
        for (const auto &[path, bytes] : files) {
            if (path.size() > name && line.compare(0, path.size(), path) == 0 && line[path.size()] == ':') name = path.size();
        }
        found.push_back(inside::problem_in(line, name));
    }
    return found;
}

/// What a template is checked for: a JSON Schema, the name by which findings call it, the template that is rendered (the first file's own
/// where it is empty), templates that may be missing, the mode (0 each, 1 default, 2 invalid, 3 zero, 4 error) and the form of the findings
/// (0 lines, 1 JSON, 2 SARIF).
struct question {
    std::string_view schema;
    std::string_view schema_name = "schema";
    std::string_view name = "";
    std::vector<std::string_view> stops = {};
    int mode = 0;
    int format = 0;
};

/// Whether a template never fails over data of a schema, but by limits and stops, and what was found.
struct verdict {
    bool is_safe;
    std::string findings;
};

/// Checks a template over all data of a JSON Schema. Throws `error` where a name is not UTF-8.
inline verdict check_schema(const files &files, const question &asked) {
    std::vector<tmpl_file> passed;
    passed.reserve(files.size() + 1);
    for (const auto &[path, bytes] : files) passed.push_back(inside::file(path, bytes));
    std::vector<tmpl_name> stops;
    stops.reserve(asked.stops.size() + 1);
    for (const auto &stop : asked.stops) stops.push_back({inside::start(stop), stop.size()});
    const tmpl_question question{inside::file(asked.schema_name, asked.schema), inside::start(asked.name), asked.name.size(), stops.data(), stops.size(),
                                 static_cast<std::uint8_t>(asked.mode), static_cast<std::uint8_t>(asked.format)};
    inside::text text;
    const int status = tmpl_check_schema(passed.data(), passed.size(), &question, &text);
    if (status != TMPL_REFUSED) inside::judge(status, "tmpl: a name is not UTF-8\n");
    return {status == TMPL_OK, std::string(text.bytes != nullptr ? text.bytes : "", text.size)};
}

/// One JSON value that is read once; without bytes there is no data, and dot is nothing. Any number of threads render it at the same time.
class data {
    struct kept {
        std::mutex gate; // held while the handle is shared, and during no render
        inside::value value;
    };
    std::unique_ptr<kept> held{new kept};
    friend class templates;

    void share_with(tmpl_data *copy) const {
        const std::lock_guard<std::mutex> lock(held->gate);
        inside::judge(tmpl_data_share(&held->value, copy));
    }

public:
    explicit data(std::string_view json = "") {
        inside::accept([&](tmpl_buffer *err) { return tmpl_data_read(&held->value, inside::start(json), json.size(), err); });
    }

    /// The same value once more. It is not copied.
    data share() const {
        data copy;
        share_with(&copy.held->value);
        return copy;
    }
};

/// Template files that are parsed once, and rendered as often as you like.
class templates {
    static constexpr std::size_t kept_size = 1 << 20; // a text of more bytes is given back after its render
    // what one render at a time needs
    struct worker {
        inside::program program;
        inside::value with;
        inside::text text, line;
        unsigned long version = 0;
    };
    struct kept {
        std::mutex gate; // of all that is here, but held during no render
        inside::set set;
        inside::program program;
        std::vector<std::unique_ptr<worker>> idle;
        unsigned long version = 0, made = 0;
    };
    std::unique_ptr<kept> held{new kept};

    std::unique_ptr<worker> take() {
        const std::lock_guard<std::mutex> lock(held->gate);
        if (held->version != held->made) inside::judge(tmpl_program_make(&held->set, &held->program)), held->made = held->version;
        if (!held->idle.empty()) {
            auto it = std::move(held->idle.back());
            held->idle.pop_back();
            return it;
        }
        auto it = std::make_unique<worker>();
        it->version = held->version;
        inside::judge(tmpl_program_share(&held->program, &it->program));
        return it;
    }

    void give(std::unique_ptr<worker> it) {
        const std::lock_guard<std::mutex> lock(held->gate);
        if (it->version == held->version) held->idle.push_back(std::move(it));
    }

public:
    /// Adds the templates of a file of this path, after those of earlier files. Where it throws, the templates are as they were.
    void add(std::string_view path, std::string_view bytes) {
        const tmpl_file file = inside::file(path, bytes);
        const std::lock_guard<std::mutex> lock(held->gate);
        try {
            inside::accept([&](tmpl_buffer *err) { return tmpl_set_add(&held->set, &file, err); });
        } catch (error &it) {
            if (it.status == TMPL_REFUSED) it.bear(path, bytes);
            throw;
        }
        held->version++, held->idle.clear();
    }

    /// The text of the template of this name. All zeros are the default settings.
    std::string render(std::string_view name, const data &with, const tmpl_settings &how = TMPL_SETTINGS) {
        auto it = take();
        if (how.print != 1) with.share_with(&it->with);
        const int status = how.print != 1
            ? tmpl_render_text(&how, &it->program, &it->with, inside::start(name), name.size(), &it->text, &it->line)
            : print(it->text);
        tmpl_data_free(&it->with); // so that it goes with its last `data`
        std::string text = inside::copied(it->text), line = inside::copied(it->line);
        if (text.size() > kept_size) tmpl_text_free(&it->text);
        give(std::move(it));
        return inside::judge(status, line, text), text;
    }

private:
    int print(tmpl_text &text) {
        const std::lock_guard<std::mutex> lock(held->gate);
        return tmpl_set_print(&held->set, &text);
    }
};

} // namespace tmpl

#endif
