// Renders a template by ctemplate, an engine in C++, to compare with: `cpp_peer TEMPLATE ROWS COUNT` renders so often what was parsed and read
// once, and tells the least and the middle time of one render in nanoseconds and the bytes of its text. Each line of ROWS fills the section
// ROW once more: fields parted by tabs, each a value as in `NAME=Ada`, or the name of a section that is shown.
#include <ctemplate/template.h>
#include <ctemplate/template_dictionary.h>

#include <algorithm>
#include <chrono>
#include <fstream>
#include <iostream>
#include <iterator>
#include <memory>
#include <sstream>
#include <string>
#include <vector>

static const int TIMES = 31;

static void fill(ctemplate::TemplateDictionary *row, const std::string &line) {
    std::istringstream fields(line);
    for (std::string field; std::getline(fields, field, '\t');) {
        const auto sign = field.find('=');
        if (sign == std::string::npos)
            row->ShowSection(field);
        else
            row->SetValue(field.substr(0, sign), field.substr(sign + 1));
    }
}

int main(int argc, char **argv) {
    if (argc != 4) return 2;
    std::ifstream source(argv[1]), rows(argv[2]);
    const std::string text{std::istreambuf_iterator<char>(source), {}};
    const int count = std::stoi(argv[3]);
    std::unique_ptr<ctemplate::Template> parsed(ctemplate::Template::StringToTemplate(text, ctemplate::DO_NOT_STRIP));
    if (!parsed) return 1;
    ctemplate::TemplateDictionary data("data");
    for (std::string line; std::getline(rows, line);) fill(data.AddSectionDictionary("ROW"), line);
    std::vector<long long> times;
    size_t size = 0;
    for (int turn = 0; turn < TIMES; turn++) {
        const auto start = std::chrono::steady_clock::now();
        for (int i = 0; i < count; i++) {
            std::string put;
            if (!parsed->Expand(&put, &data)) return 1;
            size = put.size();
        }
        times.push_back(std::chrono::nanoseconds(std::chrono::steady_clock::now() - start).count() / count);
    }
    std::sort(times.begin(), times.end());
    std::cout << times.front() << ' ' << times[TIMES / 2] << ' ' << size << '\n';
}
