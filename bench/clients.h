// What clients share whose calls are counted: threads that go on until the time is over, the processor seconds of processes, and
// what a disk does alone.
#ifndef CLIENTS_H
#define CLIENTS_H

#include <atomic>
#include <chrono>
#include <functional>
#include <string>
#include <thread>
#include <vector>

using Clock = std::chrono::steady_clock;

// How often what is measured was done, and whether the threads are to end.
extern std::atomic<long> done;
extern std::atomic<bool> over;

double seconds_since(Clock::time_point start);

// Ends the process at once.
[[noreturn]] void fail(const std::string &why);

// A thread that does this. Where it raises an exception the process ends.
std::thread session(const std::function<void()> &work);

// The processor seconds that a process has had, those of threads that have ended too.
double processor(const std::string &process);

// The syncs a second, by `fsync` or `fdatasync`, of these files together. Each is written as a journal is, by a thread of its
// own.
double syncs(const std::string &call, const std::vector<std::string> &files, double seconds);

#endif
