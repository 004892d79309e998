// The client of transfers.sh, over omniORB. It prints numbers alone, which the script puts into words:
//   transfers syncs SECONDS FILE ..: the syncs a second, by fsync, of files together that are written as journals are.
//   transfers commits CLIENTS SECONDS SERVICE FIRST SECOND PROCESS PROCESS PROCESS: the commits a second, and the processor
//   seconds a commit, of the first of the processes and of the two others together. The words before are the references that
//   the service and the two ends wrote.
// Each client is a thread. The clock begins after half a second, when each has its connections.
#include "Cells.hh"
#include "clients.h"
#include "within.h"

#include <iostream>
#include <unistd.h>

using namespace CosTransactions;
typedef CORBA::ULongLong Number;

static TransactionFactory_var factory;
static Cells_var ends[2];

// Commits one transaction after another, each of which puts a value into this cell of both ends: 1, 2 and so on. In the end
// both must hold the last one.
static void put_all(Number cell) {
    Number count = 0;
    while (!over) {
        Transaction t(factory->create(0));
        {
            Within within(t.context());
            for (const Cells_var &end : ends) end->put(cell, count + 1);
        }
        t.terminator->commit(true);
        count++;
        done++;
    }
    for (const Cells_var &end : ends) {
        Number value = 0;
        if (!end->get(cell, value) || value != count) fail("a cell doesn't hold what was committed");
    }
}

static void commits(int clients, double seconds, const std::vector<std::string> &processes) {
    std::vector<std::thread> threads;
    for (int number = 0; number < clients; number++) threads.push_back(session([number] { put_all(number); }));
    usleep(500000);
    std::vector<double> used;
    for (const std::string &process : processes) used.push_back(processor(process));
    long before = done;
    Clock::time_point start = Clock::now();
    usleep(1000000 * seconds);
    double passed = seconds_since(start);
    long count = done - before;
    for (size_t place = 0; place < used.size(); place++) used[place] = processor(processes[place]) - used[place];
    over = true;
    for (auto &thread : threads) thread.join();
    if (count == 0) fail("nothing was done");
    std::cout << count / passed << " " << used[0] / count << " " << (used[1] + used[2]) / count << std::endl;
}

int main(int argc, char **argv) {
    std::string what = argc > 3 ? argv[1] : "";
    if (what == "syncs") {
        std::cout << syncs("fsync", {argv + 3, argv + argc}, atof(argv[2])) << std::endl;
        return 0;
    }
    try {
        CORBA::ORB_var orb = CORBA::ORB_init(argc, argv);
        if (argc < 10) fail("the words are in the head of transfers.cc");
        Within::install();
        CORBA::Object_var objects[3];
        for (int word : {0, 1, 2}) objects[word] = orb->string_to_object(argv[4 + word]);
        factory = TransactionFactory::_unchecked_narrow(objects[0]);
        for (int end : {0, 1}) ends[end] = Cells::_unchecked_narrow(objects[end + 1]);
        commits(atoi(argv[2]), atof(argv[3]), {argv + 7, argv + 10});
        orb->destroy();
    } catch (const CORBA::Exception &raised) {
        fail(raised._rep_id());
    }
}
