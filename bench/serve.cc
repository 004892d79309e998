// The client of serve.sh, over omniORB. It prints numbers alone, which the script puts into words:
//   serve syncs CALL SECONDS FILE: the syncs a second, by fsync or fdatasync, of a file that is written as a journal is.
//   serve commits CLIENTS SECONDS REFERENCE PROCESS: the commits a second, and the processor seconds of that process a commit.
//   serve calls CLIENTS SECONDS REFERENCE: the calls of get_status a second.
//   serve longest CLIENTS SECONDS REFERENCE: the calls of get_status that were made while so many clients commit, one each
//   millisecond, the milliseconds of the one in the middle, and of the longest.
// Each client is a thread. The clock begins after half a second, when each has its connection.
#include "clients.h"
#include "objects.h"

#include <algorithm>
#include <iostream>
#include <unistd.h>

using namespace CosTransactions;

static TransactionFactory_var factory;
static std::atomic<long> told{0};

// Commits one transaction after another. Its two resources vote for it; they serve all of them.
static void commit_all() {
    Bidding counts;
    counts.at_commit = [] { told++; };
    Resource_var first = activated<CosTransactions::Resource>(new PlainResource("first", counts));
    Resource_var second = activated<CosTransactions::Resource>(new PlainResource("second", counts));
    while (!over) {
        Control_var control = factory->create(0);
        Coordinator_var coordinator = control->get_coordinator();
        Terminator_var terminator = control->get_terminator();
        RecoveryCoordinator_var one = coordinator->register_resource(first);
        RecoveryCoordinator_var two = coordinator->register_resource(second);
        terminator->commit(true);
        done++;
    }
}

// A transaction that is asked for its status. A further one takes its place after 10,000 questions, since the service keeps
// each call in the history of its transaction, which has an end.
class Asked {
public:
    void renew() {
        if (asked++ % 10000 != 0) return;
        end();
        Control_var control = factory->create(0);
        coordinator = control->get_coordinator();
        terminator = control->get_terminator();
        ask(); // for its first call omniORB asks where the object is
    }
    void ask() { coordinator->get_status(); }
    void end() {
        if (!CORBA::is_nil(terminator)) terminator->rollback();
    }

private:
    Coordinator_var coordinator;
    Terminator_var terminator;
    long asked = 0;
};

static void ask_all() {
    Asked asked;
    for (; !over; done++) {
        asked.renew();
        asked.ask();
    }
    asked.end();
}

// Asks once each millisecond, and keeps the milliseconds that each call took.
static void ask_at_times(std::vector<double> &took) {
    Asked asked;
    while (!over) {
        asked.renew();
        Clock::time_point start = Clock::now();
        asked.ask();
        took.push_back(1000 * seconds_since(start));
        usleep(1000);
    }
    asked.end();
}

static void serve(const std::string &what, int clients, double seconds, const std::string &process) {
    std::vector<double> took;
    std::vector<std::thread> threads;
    for (int number = 0; number < clients; number++) threads.push_back(session(what == "calls" ? ask_all : commit_all));
    usleep(500000);
    if (what == "longest") threads.push_back(session([&] { ask_at_times(took); }));
    double used = what == "commits" ? processor(process) : 0;
    long before = done;
    Clock::time_point start = Clock::now();
    usleep(1000000 * seconds);
    double passed = seconds_since(start);
    long count = done - before;
    if (what == "commits") used = processor(process) - used;
    over = true;
    for (auto &thread : threads) thread.join();
    if (count == 0) fail("nothing was done");
    if (what != "calls" && told < 2 * done) fail("a resource wasn't told of a commit");
    if (what == "longest") {
        std::sort(took.begin(), took.end());
        std::cout << took.size() << " " << took[took.size() / 2] << " " << took.back() << std::endl;
    } else {
        std::cout << count / passed;
        if (what == "commits") std::cout << " " << used / count;
        std::cout << std::endl;
    }
}

int main(int argc, char **argv) {
    std::string what = argc > 4 ? argv[1] : "";
    if (what == "syncs") {
        std::cout << syncs(argv[2], {argv[4]}, atof(argv[3])) << std::endl;
        return 0;
    }
    try {
        CORBA::ORB_var orb = CORBA::ORB_init(argc, argv);
        if (argc < (what == "commits" ? 6 : 5)) fail("the words are in the head of serve.cc");
        CORBA::Object_var root = orb->resolve_initial_references("RootPOA");
        PortableServer::POA_var poa = PortableServer::POA::_narrow(root);
        PortableServer::POAManager_var manager = poa->the_POAManager();
        manager->activate();
        CORBA::Object_var object = orb->string_to_object(argv[4]);
        factory = TransactionFactory::_unchecked_narrow(object);
        serve(what, atoi(argv[2]), atof(argv[3]), argc > 5 ? argv[5] : "");
        orb->destroy();
    } catch (const CORBA::Exception &raised) {
        fail(raised._rep_id());
    }
}
