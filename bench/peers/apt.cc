// apt cut FILE: cuts an index of packages into paragraphs and these into fields with libapt-pkg.
// apt write FILE: writes each of these paragraphs with its fields in apt's order.
// apt sort FILE: sorts a file that has a version in each line.
#include <apt-pkg/debversion.h>
#include <apt-pkg/error.h>
#include <apt-pkg/fileutl.h>
#include <apt-pkg/tagfile.h>

#include <algorithm>
#include <fstream>
#include <iostream>
#include <string>
#include <vector>

// Reads each paragraph, and writes it if there is a sink.
static bool cut(const std::string &path, FileFd *sink) {
    FileFd file(path, FileFd::ReadOnly);
    pkgTagFile paragraphs(&file);
    pkgTagSection paragraph;
    while (paragraphs.Step(paragraph))
        if (sink && !(paragraph.Write(*sink, TFRewritePackageOrder) && sink->Write("\n", 1)))
            return false;
    return !_error->PendingError();
}

static bool write(const std::string &path) {
    FileFd sink;
    return sink.Open("/dev/stdout", FileFd::WriteOnly | FileFd::BufferedWrite) && cut(path, &sink) &&
           sink.Close();
}

static bool sort(const std::string &path) {
    std::ifstream file(path);
    std::vector<std::string> versions;
    for (std::string line; std::getline(file, line);)
        versions.push_back(line);
    std::stable_sort(versions.begin(), versions.end(), [](const auto &one, const auto &other) {
        return debVS.CmpVersion(one, other) < 0;
    });
    for (const auto &version : versions)
        std::cout << version << '\n';
    return file.eof() && std::cout.flush();
}

int main(int count, char **words) {
    const std::string name = count == 3 ? words[1] : "";
    bool is_done = false;
    if (name == "cut")
        is_done = cut(words[2], nullptr);
    else if (name == "write")
        is_done = write(words[2]);
    else if (name == "sort")
        is_done = sort(words[2]);
    _error->DumpErrors();
    return is_done ? 0 : 2;
}
