// Tells a session each line of standard input, prints the answers, and keeps the lines that its log took in a file. Started again, it
// goes on from that.
//
//     tools/build_c_library.sh /tmp/pgpeer
//     c++ -std=c++17 -I/tmp/pgpeer -o keep examples/cpp/keep.cpp /tmp/pgpeer/libpgpeer.a
//     ./keep /tmp/log < examples/outage.jsonl
#include <fcntl.h>
#include <unistd.h>

#include <filesystem>
#include <fstream>
#include <iostream>
#include <iterator>

#include "pgpeer.hpp"

// A file of lines, at whose end each is on the disk once it is kept.
class Log {
    int file_;

public:
    explicit Log(const char *path) : file_(open(path, O_WRONLY | O_CREAT | O_APPEND, 0644)) {
        if (file_ < 0) throw std::runtime_error("the file can't be opened");
    }
    Log(const Log &) = delete;
    ~Log() { close(file_); }

    void keep(std::string line) {
        line += '\n';
        if (write(file_, line.data(), line.size()) != static_cast<ssize_t>(line.size()) || fsync(file_) != 0) {
            throw std::runtime_error("the file can't be written");
        }
    }
};

// The whole lines of a file. One that was cut off as it was written was never answered, and is taken away.
static std::string whole_lines(const char *path) {
    std::ifstream file(path, std::ios::binary);
    std::string text{std::istreambuf_iterator<char>(file), {}};
    text.resize(text.rfind('\n') + 1);
    std::filesystem::resize_file(path, text.size());
    return text;
}

int main(int argc, char **argv) try {
    if (argc != 2) throw std::runtime_error("usage: keep FILE");
    Log log(argv[1]);
    pgpeer::Session session(whole_lines(argv[1]));
    if (session.refused() > 0) throw std::runtime_error("the file has other lines than those of a log");
    for (std::string line; std::getline(std::cin, line);) {
        std::size_t before = session.log().count;
        std::string_view answer = session.tell(line);
        if (session.log().count > before) log.keep(line);
        std::cout << answer << std::flush;
    }
    return 0;
} catch (const std::exception &why) {
    std::cerr << "keep: " << why.what() << '\n';
    return 1;
}
