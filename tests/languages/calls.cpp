// The header as C++ reads it.
#include "debctl.h"

#include <cstdio>
#include <string>
#include <vector>

static const uint8_t *bytes(const std::string &text) {
    return reinterpret_cast<const uint8_t *>(text.data());
}

static std::string normalised(const std::string &text) {
    size_t length = 0;
    deb_answer answer = deb_normalise(DEB_PACKAGES, bytes(text), text.size(), nullptr, 0, &length);
    std::vector<uint8_t> out(length);
    if (answer.status == DEB_NO_ROOM)
        answer = deb_normalise(DEB_PACKAGES, bytes(text), text.size(), out.data(), out.size(),
                               &length);
    if (answer.status != DEB_YES)
        return "status " + std::to_string(answer.status);
    return std::string(out.begin(), out.end());
}

static std::string explained(const std::string &text) {
    size_t length = 0;
    deb_answer answer = deb_explain(DEB_PACKAGES, bytes(text), text.size(), nullptr, 0, &length);
    std::vector<uint8_t> out(length);
    answer = deb_explain(DEB_PACKAGES, bytes(text), text.size(), out.data(), out.size(), &length);
    return std::to_string(answer.status) + ' ' + std::string(out.begin(), out.end());
}

// The refusals of a file, each as LINE:CODE, after the number of paragraphs that pass.
static std::string refusals(const std::string &text) {
    std::vector<deb_refusal> table(text.size());
    size_t count = 0;
    deb_answer answer = deb_check_all(DEB_PACKAGES, bytes(text), text.size(), table.data(),
                                      table.size(), &count);
    std::string out = std::to_string(answer.count);
    for (size_t at = 0; at < count; at++)
        out += ' ' + std::to_string(table[at].line) + ':' + std::to_string(table[at].code);
    return out;
}

static std::string key(const std::string &version) {
    std::string out(2 * version.size() + 8, '\0');
    size_t length = 0;
    deb_version_key(bytes(version), version.size(), reinterpret_cast<uint8_t *>(&out[0]),
                    out.size(), &length);
    out.resize(length);
    return out;
}

static std::string fields(const std::string &text) {
    std::vector<deb_field> spans(text.size());
    std::vector<uint8_t> names(text.size() + 1), values(text.size() + 1);
    size_t count = 0, names_length = 0, values_length = 0;
    deb_fields(DEB_ANY, bytes(text), text.size(), spans.data(), spans.size(), &count, names.data(),
               names.size(), &names_length, values.data(), values.size(), &values_length);
    std::string out;
    for (size_t at = 0; at < count; at++) {
        out += reinterpret_cast<const char *>(names.data()) + spans[at].name;
        out += '=';
        out += reinterpret_cast<const char *>(values.data()) + spans[at].value;
        out += ' ';
    }
    return out;
}

// An index that is loaded as long as this lives.
class Loaded {
public:
    explicit Loaded(const std::string &text) : memory(deb_index_size() / 8 + 1) {
        deb_answer answer;
        deb_index_read(index(), bytes(text), text.size(), &answer);
    }
    ~Loaded() { deb_index_free(index()); }
    Loaded(const Loaded &) = delete;
    Loaded &operator=(const Loaded &) = delete;
    deb_index *index() { return reinterpret_cast<deb_index *>(memory.data()); }

private:
    std::vector<uint64_t> memory;
};

// The report of a loaded index on a relation.
static std::string asked(const std::string &text, const std::string &relation) {
    Loaded loaded(text);
    std::vector<uint8_t> out(256);
    size_t length = 0;
    deb_answer answer = deb_index_query(loaded.index(), bytes("amd64"), 5, nullptr, 0,
                                        bytes(relation), relation.size(), out.data(), out.size(),
                                        &length);
    return std::to_string(answer.status) + ' ' + std::string(out.begin(), out.begin() + length);
}

// The relations of the packages of a loaded index that none of them meets.
static std::string unmet(const std::string &text) {
    Loaded loaded(text);
    std::vector<uint8_t> out(256);
    size_t length = 0;
    deb_answer answer = deb_index_unmet(loaded.index(), DEB_PACKAGES, 0, bytes("amd64"), 5, nullptr,
                                        0, bytes(text), text.size(), out.data(), out.size(),
                                        &length);
    return std::to_string(answer.status) + ' ' + std::string(out.begin(), out.begin() + length);
}

// Why the packages of a text aren't healthy as a set.
static std::string unhealthy(const std::string &text, deb_kind kind = DEB_PACKAGES) {
    std::vector<uint8_t> out(256);
    size_t length = 0;
    deb_answer answer = deb_healthy(kind, 0, bytes("amd64"), 5, bytes(text), text.size(),
                                    out.data(), out.size(), &length);
    return std::to_string(answer.status) + ' ' + std::string(out.begin(), out.begin() + length);
}

// Which packages of a text can't be installed without one of this name.
static std::string uninstallable(const std::string &text, uint32_t budget = 0,
                                 const std::string &left_out = "", uint8_t reasons = 0) {
    std::vector<uint8_t> out(256);
    size_t length = 0;
    const deb_text without[] = {{bytes(left_out), left_out.size()}};
    deb_answer answer = deb_installable(DEB_PACKAGES, 0, 0, reasons, budget, bytes("amd64"), 5,
                                        without, 1, bytes(text), text.size(), out.data(),
                                        out.size(), &length);
    return std::to_string(answer.status) + ' ' + std::string(out.begin(), out.begin() + length);
}

// A set of packages of a text that contains one with this name, and the essential ones.
static std::string sought(const std::string &text, const std::string &name) {
    std::vector<uint8_t> out(256);
    size_t length = 0;
    deb_answer answer = deb_witness(DEB_PACKAGES, 0, 1, 0, 0, bytes("amd64"), 5, bytes(name),
                                    name.size(), nullptr, 0, bytes(text), text.size(), out.data(),
                                    out.size(), &length);
    return std::to_string(answer.status) + ' ' + std::string(out.begin(), out.begin() + length);
}

// Which source packages of a text can't be built with the packages of another.
static std::string unbuilt(const std::string &index, const std::string &text) {
    std::vector<uint8_t> out(256);
    size_t length = 0;
    deb_answer answer = deb_buildable(DEB_SOURCES, 0, 0, 0, bytes("amd64"), 5, nullptr, 0, nullptr,
                                      0, bytes(index), index.size(), bytes(text), text.size(),
                                      out.data(), out.size(), &length);
    return std::to_string(answer.status) + ' ' + std::string(out.begin(), out.begin() + length);
}

int main() {
    const std::string text = "vERSION: 01.0-0\npackage:hello\nArchitecture: amd64\n";
    int failed = 0;
    failed += normalised(text) != "Architecture: amd64\nPackage: hello\nVersion: 1.0\n";
    failed += normalised("") != "status 0" && !normalised("").empty();
    failed += normalised("x") != "status 2";
    failed += explained(text) != "0 ok 1\n";
    failed += explained("Package: aa\nVersion: 1_2\n")
                  .find("2 line: 2\ncode: 18\nname: BadVersion\nfield: Version\nplace: 1\nat: 2:11\n") != 0;
    failed += refusals("x\n\n" + text + "\nPackage: aa\nVersion: 1_2\n") != "1 1:6 8:18";
    failed += deb_version_compare(bytes("1"), 1, bytes("2"), 1).order >= 0;
    failed += key("1.0~rc1") >= key("1.0") || key("1.0") != key("0:1.00-0");
    failed += fields("Package: aa\nDepends: bb\n") != "Package=aa Depends=bb ";
    failed += asked(text, "hello") != "0 met hello\n 1 hello 1.0 amd64\n";
    failed += unmet(text) != "0 " ||
              unmet(text + "Depends: aa\n") != "1 unmet 1 hello 1.0 amd64 Depends aa\n";
    failed += unhealthy(text) != "0 " ||
              unhealthy(text + "\n" + text) !=
                  "1 duplicate 1 hello 1.0 amd64 with 2 1.0 amd64\n";
    const std::string removed = text + "Status: deinstall ok config-files\n\n";
    failed += unhealthy(removed + text + "Status: install ok installed\n", DEB_STATUS) != "0 " ||
              unhealthy(removed + text + "Status: install ok unpacked\n", DEB_STATUS) !=
                  "1 state 2 hello 1.0 amd64 unpacked\n" ||
              unhealthy(text, DEB_STATUS) != "2 " || unhealthy(text, DEB_ANY) != "6 ";
    failed += uninstallable(text) != "0 " || uninstallable(text + "\n" + text, 1) != "0 " ||
              uninstallable(text + "Depends: aa\n\n" + text) !=
                  "1 uninstallable 1 hello 1.0 amd64\n" ||
              uninstallable(text + "Depends: aa\n", 0, "hello") != "0 " ||
              uninstallable(text + "Depends: aa\n", 0, "", 1) !=
                  "1 uninstallable 1 hello 1.0 amd64\n 1 hello 1.0 amd64 needs aa: none\n";
    const std::string source = "Package: ss\nVersion: 1\n";
    failed += unbuilt(text, source) != "1 uninstallable 1 ss 1 source\n" ||
              unbuilt(text + "Provides: build-essential\n", source) != "0 " ||
              unbuilt(text, "x") != "3 " || unbuilt("x", "x") != "2 ";
    failed += sought(text, "hello") != "0  1 hello 1.0 amd64\n" || sought(text, "aa") != "1 " ||
              sought(text + "Depends: aa\n", "hello") != "1 uninstallable 1 hello 1.0 amd64\n" ||
              sought(text + "\nPackage: aa\nVersion: 1\nArchitecture: all\nEssential: yes\n",
                     "hello") != "0  1 hello 1.0 amd64\n 2 aa 1 all\n" ||
              sought("x", "") != "2 ";
    std::printf("cpp: %d passed, %d failed\n", 16 - failed, failed);
    return failed != 0;
}
