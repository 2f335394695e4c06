// `peers mstch|kainjow PAGES TEMPLATE DATA [NAME PARTIAL]..` tells the nanoseconds of a page, rendered so often, and of reading its template and
// partials once (mstch reads them within each page: 0). With no pages it prints the page. Values are escaped as mustache(5) has it, in place of
// the peers' own escapes of quotes and slashes.
#include <chrono>
#include <cstdlib>
#include <fstream>
#include <functional>
#include <iostream>
#include <iterator>
#include <kainjow/mustache.hpp>
#include <map>
#include <mstch/mstch.hpp>
#include <nlohmann/json.hpp>
#include <stdexcept>
#include <string>
#include <vector>

using json = nlohmann::json;
using Texts = std::map<std::string, std::string>;

static std::string file(const char *path) {
    std::ifstream in(path, std::ios::binary);
    if (!in) throw std::runtime_error(std::string("no ") + path);
    return {std::istreambuf_iterator<char>(in), std::istreambuf_iterator<char>()};
}

static std::string escaped(const std::string &text) {
    std::string out;
    out.reserve(text.size());
    for (char c : text) {
        switch (c) {
        case '&': out += "&amp;"; break;
        case '"': out += "&quot;"; break;
        case '<': out += "&lt;"; break;
        case '>': out += "&gt;"; break;
        default: out += c;
        }
    }
    return out;
}

static mstch::node mstch_data(const json &value) {
    if (value.is_object()) {
        mstch::map map;
        for (auto &member : value.items()) map.emplace(member.key(), mstch_data(member.value()));
        return map;
    }
    if (value.is_array()) {
        mstch::array array;
        for (auto &item : value) array.push_back(mstch_data(item));
        return array;
    }
    if (value.is_boolean()) return value.get<bool>();
    if (value.is_number_integer()) return value.get<int>();
    if (value.is_string()) return value.get<std::string>();
    return nullptr;
}

namespace kj = kainjow::mustache;

static kj::data kainjow_data(const json &value) {
    if (value.is_object()) {
        kj::data object(kj::data::type::object);
        for (auto &member : value.items()) object.set(member.key(), kainjow_data(member.value()));
        return object;
    }
    if (value.is_array()) {
        kj::data list(kj::data::type::list);
        for (auto &item : value) list.push_back(kainjow_data(item));
        return list;
    }
    if (value.is_boolean()) return kj::data(value.get<bool>());
    if (value.is_number_integer()) return kj::data(std::to_string(value.get<long long>()));
    if (value.is_string()) return kj::data(value.get<std::string>());
    return kj::data(false);
}

static volatile size_t seen;

static long long nanoseconds(long times, const std::function<size_t()> &work) {
    auto start = std::chrono::steady_clock::now();
    for (long n = 0; n < times; n++) seen = work();
    auto took = std::chrono::steady_clock::now() - start;
    return std::chrono::duration_cast<std::chrono::nanoseconds>(took).count() / times;
}

static void mstch_pages(long pages, const std::string &text, const json &value, const Texts &partials) {
    mstch::config::escape = escaped;
    const mstch::node data = mstch_data(value);
    if (pages == 0) {
        std::cout << mstch::render(text, data, partials);
        return;
    }
    std::cout << nanoseconds(pages, [&] { return mstch::render(text, data, partials).size(); }) << " 0\n";
}

static void kainjow_pages(long pages, const std::string &text, const json &value, const Texts &partials) {
    kj::data data = kainjow_data(value);
    for (auto &partial : partials) data.set(partial.first, kj::partial([&partial] { return partial.second; }));
    kj::mustache page(text);
    page.set_custom_escape(escaped);
    if (pages == 0) {
        std::cout << page.render(data);
        return;
    }
    long long shown = nanoseconds(pages, [&] { return page.render(data).size(); });
    std::cout << shown << ' ' << nanoseconds(pages, [&] {
        size_t valid = kj::mustache(text).is_valid();
        for (auto &partial : partials) valid += kj::mustache(partial.second).is_valid();
        return valid;
    }) << '\n';
}

int main(int count, char **words) {
    if (count < 5) return 2;
    Texts partials;
    for (int n = 5; n + 1 < count; n += 2) partials[words[n]] = file(words[n + 1]);
    auto pages = std::string(words[1]) == "mstch" ? mstch_pages : kainjow_pages;
    pages(std::atol(words[2]), file(words[3]), json::parse(file(words[4])), partials);
}
