// Tries bindings/c/tmpl.hpp: prints what each call gives, a line each. tests/check/library.py knows what they are.
#include "tmpl.hpp"

#include <malloc.h>

#include <atomic>
#include <cstdio>
#include <fstream>
#include <string>
#include <thread>
#include <vector>

template <class Call> static void tell(const char *name, Call call) {
    try {
        const std::string text = call();
        std::printf("%s: %zu %.40s\n", name, text.size(), text.c_str());
    } catch (const tmpl::error &it) {
        std::printf("%s: %d \"%s\" after \"%s\"\n", name, it.status, it.what(), it.text.c_str());
    } catch (const std::bad_alloc &) {
        std::printf("%s: no memory\n", name);
    }
}

// how many renders of eight threads over one object were wrong
static int serve(tmpl::templates &pages, int count) {
    std::atomic<int> wrong{0};
    std::vector<std::thread> threads;
    for (int number = 0; number < 8; number++) threads.emplace_back([&, number] {
        tmpl::data own("{\"name\": " + std::to_string(number) + "}");
        for (int i = 0; i < count; i++) wrong += pages.render("n", own) != std::to_string(number) + " again";
    });
    for (auto &it : threads) it.join();
    return wrong;
}

// kilobytes that the process has
static long resident() {
    long pages = 0;
    std::ifstream("/proc/self/statm") >> pages >> pages;
    return pages * 4;
}

// by how many kilobytes the process grows by as many renders
static long growth(tmpl::templates &pages, int count) {
    long before = 0;
    for (int i = -count / 10; i < count; i++) {
        if (i == 0) before = resident();
        tmpl::data own("{\"name\": " + std::to_string(i) + "}");
        pages.render("n", own);
    }
    return resident() - before;
}

// with a word it renders less often, as under valgrind
int main(int argc, char **) {
    const int few = argc > 1 ? 100 : 1;
    tmpl::templates pages;
    tmpl::data none, ada(R"({"name": "Ada"})");
    pages.add("m", "Hello, {{.name}}!");
    pages.add("loud", "a{{range 30000}}0123456789{{end}}{{len .}}");
    tmpl_settings printed = TMPL_SETTINGS, strict = TMPL_SETTINGS, short_run = TMPL_SETTINGS, short_text = TMPL_SETTINGS;
    printed.print = 1, strict.missing_key = 3, short_run.steps = 1, short_text.output = 9;
    tell("with data", [&] { return pages.render("m", ada); });
    tell("without", [&] { return pages.render("m", none); });
    tell("a missing key", [&] { return pages.render("m", none, strict); });
    tell("a long text", [&] { return pages.render("loud", ada); });
    tell("few steps", [&] { return pages.render("m", ada, short_run); });
    tell("no template", [&] { return pages.render({}, ada); });
    tell("a long name", [&] { return pages.render(std::string(5000, 'x'), ada); });
    tell("refused", [&] { return pages.add("n", "{{"), std::string(); });
    tell("problems", [&] {
        std::string all;
        try {
            pages.add("n", "{{name}}");
        } catch (const tmpl::error &it) {
            for (const tmpl::problem &problem : it.problems()) all += problem.str() + "|";
        }
        return all;
    });
    tell("no problems", [&] { return std::to_string(tmpl::check({{"m", "Hello, {{.name}}!"}}).size()); });
    tell("a short text", [&] { return pages.render("m", ada, short_text); });
    tell("a check over a schema", [&] {
        const std::string schema = R"({"type": "object", "properties": {"a": {"type": "string"}}, "required": ["a"]})";
        const auto safe = tmpl::check_schema({{"m", "{{len .a}}"}}, {schema}), unsafe = tmpl::check_schema({{"m", "{{len .b}}"}}, {schema});
        return std::to_string(safe.is_safe) + "|" + safe.findings + "|" + std::to_string(unsafe.is_safe) + "|" + unsafe.findings.substr(0, 36);
    });
    tell("the parts of a problem", [&] {
        const std::string odd = "b:1:1: error: out of place: c";
        const auto found = tmpl::check({{"a", ""}, {odd, "\n {{if 1}}"}}).at(0);
        return found.file + "|" + std::to_string(found.line) + "|" + std::to_string(found.column) + "|" + found.rule;
    });
    tell("the place of an error", [&] {
        try {
            pages.add("n", "\n{{name}}");
        } catch (const tmpl::error &it) {
            return it.file + "|" + std::to_string(it.line_number) + "|" + std::to_string(it.problems().at(0).line);
        }
        return std::string();
    });
    tell("many problems", [&] {
        std::string many;
        for (int i = 0; i < 1100; i++) many += "{{}}";
        return std::to_string(tmpl::check({{"m", many}}).size()) + " " + std::to_string(tmpl::check({{"m", many}}, 7).size());
    });
    const tmpl::data constant(R"({"name": "a constant"})");
    tell("data that is constant", [&] { return pages.render("m", constant); });
    pages.add("large", "{{range 2000000}}0123456789{{end}}");
    tell("little memory", [&] {
        const tmpl::memory_limit limit(1 << 20);
        return pages.render("large", none);
    });
    tell("a large text is given back", [&] {
        malloc_trim(0);
        const long before = resident();
        pages.render("large", none);
        malloc_trim(0);
        return resident() - before < 8192 ? "it is" : "it stays";
    });
    tell("no name of a file", [&] { return pages.add("\xff", ""), std::string(); });
    tell("no JSON", [&] { return tmpl::data("[1.5]"), std::string(); });
    const tmpl::templates moved = std::move(pages);
    tmpl::templates again = tmpl::templates();
    again.add("m", {});
    again.add("m", "{{.name}}");
    again = tmpl::templates();
    again.add("n", "{{.name}} again");
    tmpl::data kept = std::move(ada);
    tell("moved", [&] { return again.render("n", kept); });
    tmpl::data shared = kept.share();
    kept = tmpl::data();
    tell("shared", [&] { return again.render("n", shared); });
    tell("threads", [&] { return std::to_string(serve(again, 12500 / few)) + " wrong"; });
    tell("memory", [&] { return growth(again, 100000 / few) < 1024 ? "flat" : "grows"; });
    again.add("n", "{{.name}} once more");
    tell("after one more file", [&] { return again.render("n", shared); });
    again.add("n", "{{.name}} again");
    tell("printed", [&] { return again.render("", none, printed); });
}
