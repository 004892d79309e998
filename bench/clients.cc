#include "clients.h"
#include "objects.h"

#include <fcntl.h>
#include <fstream>
#include <iostream>
#include <iterator>
#include <sstream>
#include <unistd.h>

std::atomic<long> done{0};
std::atomic<bool> over{false};

double seconds_since(Clock::time_point start) { return std::chrono::duration<double>(Clock::now() - start).count(); }

void fail(const std::string &why) {
    std::cerr << "bench: " << why << std::endl;
    _exit(1);
}

std::thread session(const std::function<void()> &work) {
    return std::thread([work] {
        std::string end = outcome(work);
        if (end != "ok") fail(end);
    });
}

double processor(const std::string &process) {
    std::ifstream file("/proc/" + process + "/stat");
    std::string text((std::istreambuf_iterator<char>(file)), std::istreambuf_iterator<char>());
    std::istringstream words(text.substr(text.rfind(')') + 1));
    std::vector<std::string> fields{std::istream_iterator<std::string>(words), {}};
    if (fields.size() < 13) fail("no process " + process);
    return (std::stod(fields[11]) + std::stod(fields[12])) / sysconf(_SC_CLK_TCK);
}

// Makes these writes for a transaction, each with its sync: a record behind the gate, the gate, and likewise the record that
// ends it.
static void write_and_sync(int (*sync)(int), const std::string &file) {
    int opened = open(file.c_str(), O_RDWR | O_CREAT | O_TRUNC, 0600);
    std::vector<char> octets(366);
    long gate = 0;
    auto put = [&](size_t size, long place) {
        if (pwrite(opened, octets.data(), size, place) != ssize_t(size) || sync(opened) != 0) fail("can't write and sync");
        done++;
    };
    while (!over)
        for (size_t size : {366, 10}) {
            put(size, gate + 1);
            put(1, gate);
            gate += size;
        }
    close(opened);
}

double syncs(const std::string &call, const std::vector<std::string> &files, double seconds) {
    std::vector<std::thread> threads;
    Clock::time_point start = Clock::now();
    for (const std::string &file : files)
        threads.emplace_back(write_and_sync, call == "fdatasync" ? fdatasync : fsync, file);
    usleep(1000000 * seconds);
    over = true;
    for (auto &thread : threads) thread.join();
    return done / seconds_since(start);
}
