// A client of a transaction service over omniORB: it runs transactions with resources of its own, and prints a line for
// each case. `client REFERENCE` runs all cases, `client REFERENCE CASE ..` these, and `client REFERENCE crash PID RESTART`
// kills the service of that process inside a commit, has it started again by that command, and goes on.
#include "objects.h"

#include <atomic>
#include <iostream>
#include <map>
#include <signal.h>
#include <stdlib.h>
#include <thread>
#include <unistd.h>
#include <vector>

using namespace CosTransactions;

static CORBA::ORB_var orb;
static TransactionFactory_var factory;

// A transaction: its control, and what that gives.
struct Transaction {
    Control_var control;
    Coordinator_var coordinator;
    Terminator_var terminator;

    explicit Transaction(Control_ptr it)
        : control(it), coordinator(it->get_coordinator()), terminator(it->get_terminator()) {}

    static Transaction begin(CORBA::ULong seconds = 0) { return Transaction(factory->create(seconds)); }
    Transaction sub() { return Transaction(coordinator->create_subtransaction()); }

    RecoveryCoordinator_ptr add(const std::string &name, const Bidding &bidding = Bidding()) {
        Resource_var resource = activated<CosTransactions::Resource>(new PlainResource(name, bidding));
        return coordinator->register_resource(resource);
    }
    RecoveryCoordinator_ptr add_aware(const std::string &name, const Bidding &bidding = Bidding()) {
        SubtransactionAwareResource_var resource =
            activated<SubtransactionAwareResource>(new AwareResource(name, bidding));
        return coordinator->register_resource(resource);
    }
    void add_only_aware(const std::string &name) {
        SubtransactionAwareResource_var resource =
            activated<SubtransactionAwareResource>(new AwareResource(name, Bidding()));
        coordinator->register_subtran_aware(resource);
    }
    void add_sync(const std::string &name, bool balks = false) {
        CosTransactions::Synchronization_var sync =
            activated<CosTransactions::Synchronization>(new ::Synchronization(name, balks));
        coordinator->register_synchronization(sync);
    }
    std::string commit(bool report = true) {
        return outcome([&] { terminator->commit(report); });
    }
    std::string rollback() {
        return outcome([&] { terminator->rollback(); });
    }
    std::string status() { return word_of(coordinator->get_status()); }
};

template <class Exception> static std::function<void()> raising() {
    return [] { throw Exception(); };
}

static Bidding voting(Vote vote) {
    Bidding bidding;
    bidding.vote = vote;
    return bidding;
}

static void empty(Shown &shown) {
    Transaction t = Transaction::begin();
    shown << t.status() << t.commit() << t.status();
}

static void two_phases(Shown &shown) {
    Transaction t = Transaction::begin();
    RecoveryCoordinator_var a = t.add("a"), b = t.add("b");
    shown << t.commit();
    shown.told() << t.status();
}

static void one_phase(Shown &shown) {
    Transaction t = Transaction::begin();
    RecoveryCoordinator_var a = t.add("a");
    shown << t.commit();
    shown.told() << t.status();
}

static void one_phase_refused(Shown &shown) {
    Bidding refuses;
    refuses.at_one_phase = raising<CORBA::TRANSACTION_ROLLEDBACK>();
    Transaction t = Transaction::begin();
    RecoveryCoordinator_var a = t.add("a", refuses);
    shown << t.commit();
    shown.told() << t.status();
}

static void one_phase_hazard(Shown &shown) {
    Bidding hazards;
    hazards.at_one_phase = raising<HeuristicHazard>();
    for (bool report : {true, false}) {
        Transaction t = Transaction::begin();
        RecoveryCoordinator_var a = t.add("a", hazards);
        shown << t.commit(report);
        shown.told() << t.status();
    }
}

static void read_only(Shown &shown) {
    Transaction t = Transaction::begin();
    RecoveryCoordinator_var a = t.add("a", voting(VoteReadOnly)), b = t.add("b"), c = t.add("c", voting(VoteReadOnly));
    shown << t.commit();
    shown.told() << t.status();
}

static void all_read_only(Shown &shown) {
    Transaction t = Transaction::begin();
    RecoveryCoordinator_var a = t.add("a", voting(VoteReadOnly)), b = t.add("b", voting(VoteReadOnly));
    shown << t.commit();
    shown.told() << t.status();
}

static void vote_rollback(Shown &shown) {
    Transaction t = Transaction::begin();
    RecoveryCoordinator_var a = t.add("a"), b = t.add("b", voting(VoteRollback)), c = t.add("c");
    shown << t.commit();
    shown.told() << t.status();
}

static void prepare_fault(Shown &shown) {
    Bidding faults;
    faults.at_prepare = raising<CORBA::NO_RESOURCES>();
    Transaction t = Transaction::begin();
    RecoveryCoordinator_var a = t.add("a"), b = t.add("b", faults);
    shown << t.commit();
    shown.told() << t.status();
}

static void rolled_back(Shown &shown) {
    Transaction t = Transaction::begin();
    RecoveryCoordinator_var a = t.add("a"), b = t.add("b");
    shown << t.rollback();
    shown.told() << t.status() << t.commit() << t.rollback();
}

static void marked(Shown &shown) {
    Transaction t = Transaction::begin();
    RecoveryCoordinator_var a = t.add("a");
    shown << outcome([&] { t.coordinator->rollback_only(); }) << t.status();
    shown << outcome([&] { RecoveryCoordinator_var b = t.add("b"); }) << t.commit();
    shown.told() << t.status();
}

static void sub_committed(Shown &shown) {
    Transaction t = Transaction::begin();
    Transaction s = t.sub();
    RecoveryCoordinator_var a = s.add("a"), b = s.add_aware("b");
    s.add_only_aware("c");
    shown << s.commit();
    shown.told() << s.status() << t.status() << t.commit();
    shown.told() << s.status() << t.status();
}

static void sub_rolled_back(Shown &shown) {
    Transaction t = Transaction::begin();
    Transaction s = t.sub();
    RecoveryCoordinator_var a = s.add("a"), b = s.add_aware("b");
    s.add_only_aware("c");
    RecoveryCoordinator_var d = t.add("d");
    shown << s.rollback();
    shown.told() << s.status() << t.status() << t.commit();
    shown.told() << t.status();
}

static void subs_of_subs(Shown &shown) {
    Transaction t = Transaction::begin();
    Transaction s = t.sub(), u = s.sub(), v = s.sub();
    RecoveryCoordinator_var a = u.add_aware("a"), b = v.add_aware("b"), c = s.add_aware("c");
    shown << u.commit();
    shown.told() << t.commit();
    shown.told() << s.status() << v.status() << t.status();
}

static void sub_balks(Shown &shown) {
    Bidding balks;
    balks.at_subcommit = raising<CORBA::INTERNAL>();
    Transaction t = Transaction::begin();
    Transaction s = t.sub();
    RecoveryCoordinator_var a = s.add_aware("a", balks);
    shown << s.commit();
    shown.told() << s.status() << t.status() << t.commit();
    shown.told();
}

static void relations(Shown &shown) {
    Transaction t = Transaction::begin(), other = Transaction::begin();
    Transaction s = t.sub(), u = s.sub();
    Coordinator_ptr top = t.coordinator, sub = s.coordinator, leaf = u.coordinator;
    shown << "same " + flag(top->is_same_transaction(top)) + " " + flag(top->is_same_transaction(sub));
    shown << "related " + flag(sub->is_related_transaction(leaf)) + " " +
                 flag(sub->is_related_transaction(other.coordinator));
    shown << "ancestor " + flag(top->is_ancestor_transaction(leaf)) + " " + flag(leaf->is_ancestor_transaction(top));
    shown << "descendant " + flag(leaf->is_descendant_transaction(top)) + " " +
                 flag(top->is_descendant_transaction(sub));
    shown << "top " + flag(top->is_top_level_transaction()) + " " + flag(leaf->is_top_level_transaction());
    shown << "hashes " + flag(leaf->hash_top_level_tran() == top->hash_transaction()) + " " +
                 flag(leaf->hash_transaction() == top->hash_transaction());
    CORBA::String_var name = sub->get_transaction_name();
    std::string text(name);
    shown << "name ends " + text.substr(text.rfind('.'));
    shown << std::string("statuses ") + word_of(leaf->get_parent_status()) + " " + word_of(leaf->get_top_level_status());
    shown << u.rollback() << std::string(word_of(leaf->get_status())) << t.rollback() << other.rollback();
}

static void synchronizations(Shown &shown) {
    Transaction t = Transaction::begin();
    RecoveryCoordinator_var a = t.add("a"), b = t.add("b");
    t.add_sync("y");
    t.add_sync("z");
    shown << t.commit();
    shown.told();
    Transaction u = Transaction::begin();
    RecoveryCoordinator_var c = u.add("c");
    u.add_sync("y");
    shown << u.rollback();
    shown.told();
}

static void synchronization_balks(Shown &shown) {
    Transaction t = Transaction::begin();
    RecoveryCoordinator_var a = t.add("a"), b = t.add("b");
    t.add_sync("y", true);
    shown << t.commit();
    shown.told();
    Transaction s = Transaction::begin().sub();
    shown << outcome([&] { s.add_sync("z"); });
    Transaction u = Transaction::begin();
    shown << outcome([&] { u.add_only_aware("c"); });
}

static void heuristics(Shown &shown) {
    Bidding rolled;
    rolled.at_commit = raising<HeuristicRollback>();
    for (bool report : {true, false}) {
        Transaction t = Transaction::begin();
        RecoveryCoordinator_var a = t.add("a", rolled), b = t.add("b");
        shown << t.commit(report);
        shown.told();
    }
    Bidding mixed, hazard, kept;
    mixed.at_commit = raising<HeuristicMixed>();
    hazard.at_commit = raising<HeuristicHazard>();
    kept.at_rollback = raising<HeuristicCommit>();
    Transaction m = Transaction::begin();
    RecoveryCoordinator_var a = m.add("a", mixed), b = m.add("b", hazard);
    shown << m.commit();
    shown.told();
    Transaction h = Transaction::begin();
    RecoveryCoordinator_var c = h.add("c", hazard), d = h.add("d");
    shown << h.commit();
    shown.told();
    Transaction r = Transaction::begin();
    RecoveryCoordinator_var e = r.add("e", kept), f = r.add("f", voting(VoteRollback));
    shown << r.commit();
    shown.told() << r.status();
}

static void told_again(Shown &shown) {
    int calls = 0;
    Bidding busy;
    busy.at_commit = [&] {
        if (++calls == 1) throw CORBA::TRANSIENT();
    };
    Transaction t = Transaction::begin();
    RecoveryCoordinator_var a = t.add("a", busy), b = t.add("b");
    shown << t.commit();
    shown.told() << t.status();
    for (int turn = 0; turn < 50 && notes.look().empty(); turn++) usleep(100000);
    shown.told();
}

static void called_back(Shown &shown) {
    Transaction t = Transaction::begin();
    Bidding asks;
    asks.at_prepare = [&] {
        notes.note(std::string("sees ") + word_of(t.coordinator->get_status()));
        notes.note(outcome([&] { RecoveryCoordinator_var late = t.add("late"); }));
        notes.note(t.commit());
    };
    RecoveryCoordinator_var a = t.add("a", asks), b = t.add("b");
    shown << t.commit();
    shown.told();
}

static void time_over(Shown &shown) {
    Transaction t = Transaction::begin(1);
    RecoveryCoordinator_var a = t.add("a");
    PropagationContext_var context = t.coordinator->get_txcontext();
    shown << "timeout " + std::to_string(context->timeout);
    for (int turn = 0; turn < 50 && notes.look().empty(); turn++) usleep(100000);
    shown.told() << t.status() << t.commit() << t.rollback();
}

static void contexts(Shown &shown) {
    Transaction t = Transaction::begin();
    Transaction s = t.sub();
    PropagationContext_var context = s.coordinator->get_txcontext();
    shown << "timeout " + std::to_string(context->timeout) + " parents " + std::to_string(context->parents.length());
    shown << "current " + flag(context->current.coord->is_same_transaction(s.coordinator));
    shown << "parent " + flag(context->parents[0].coord->is_same_transaction(t.coordinator));
    shown << "format " + std::to_string(context->current.otid.formatID) + " bqual " +
                 std::to_string(context->current.otid.bqual_length) + " tid " +
                 std::to_string(context->current.otid.tid.length());
    shown << outcome([&] { Control_var again = factory->recreate(context); });
    shown << outcome([&] { context->current.term->rollback(); }) << s.status() << t.rollback();
}

static void after_the_end(Shown &shown) {
    Transaction t = Transaction::begin();
    Transaction s = t.sub();
    RecoveryCoordinator_var a = t.add("a"), b = t.add("b");
    shown << t.commit();
    notes.take();
    shown << outcome([&] { RecoveryCoordinator_var c = t.add("c"); }) << outcome([&] { t.add_sync("y"); });
    shown << outcome([&] { Transaction u = t.sub(); }) << outcome([&] { t.coordinator->rollback_only(); });
    shown << t.commit() << t.rollback() << s.commit() << s.rollback();
}

static void replays(Shown &shown) {
    Resource_var mine = activated<CosTransactions::Resource>(new PlainResource("a", Bidding()));
    Resource_var other = activated<CosTransactions::Resource>(new PlainResource("b", Bidding()));
    Transaction t = Transaction::begin();
    RecoveryCoordinator_var a = t.coordinator->register_resource(mine), b = t.coordinator->register_resource(other);
    shown << outcome([&] { a->replay_completion(mine); });
    shown << t.commit() << word_of(a->replay_completion(mine));
    shown << outcome([&] { a->replay_completion(CosTransactions::Resource::_nil()); });
    notes.take();
}

// An object with this key, where the factory is.
static CORBA::Object_ptr object_of(const std::string &key) {
    std::string host = getenv("OTS_HOST"), port = getenv("OTS_PORT");
    return orb->string_to_object(("corbaloc:iiop:1.2@" + host + ":" + port + "/" + key).c_str());
}

static void objects(Shown &shown) {
    Transaction t = Transaction::begin();
    shown << "factory " + flag(factory->_is_a("IDL:omg.org/CosTransactions/TransactionFactory:1.0")) + " " +
                 flag(factory->_is_a("IDL:omg.org/CORBA/Object:1.0")) + " " +
                 flag(factory->_is_a("IDL:omg.org/CosTransactions/Control:1.0")) + " " + flag(factory->_non_existent());
    shown << "control " + flag(t.control->_is_a("IDL:omg.org/CosTransactions/Control:1.0")) + " " +
                 flag(t.control->_non_existent());
    std::string no_slot = "OTSC%00%00%00%00%00%00%00%07%00%00%00%09%00%00%00%00%00%00%00%00%00%00%00%01%00%00%00%00";
    CORBA::Object_var lost = object_of(no_slot), foreign = object_of("NameService");
    shown << outcome([&] { shown << "lost " + flag(lost->_non_existent()); });
    shown << outcome([&] { Control_var control = Control::_unchecked_narrow(lost); control->get_coordinator(); });
    shown << outcome([&] { foreign->_is_a("IDL:omg.org/CosTransactions/Control:1.0"); });
    Terminator_var wrong = Terminator::_unchecked_narrow(t.control);
    shown << outcome([&] { wrong->rollback(); });
    shown << outcome([&] { t.coordinator->register_resource(CosTransactions::Resource::_nil()); });
    shown << t.rollback();
}

static void crowd(Shown &shown) {
    std::vector<std::thread> threads;
    std::mutex lock;
    std::map<std::string, int> ends;
    for (int client = 0; client < 16; client++)
        threads.emplace_back([&, client] {
            for (int turn = 0; turn < 5; turn++) {
                Transaction t = Transaction::begin();
                RecoveryCoordinator_var a = t.add("a"), b = t.add("b");
                std::string end = turn % 5 == client % 5 ? "rollback " + t.rollback() : "commit " + t.commit();
                std::lock_guard<std::mutex> guard(lock);
                ends[end]++;
            }
        });
    for (auto &thread : threads) thread.join();
    notes.take();
    for (auto &end : ends) shown << end.first + " " + std::to_string(end.second);
}

struct Case {
    const char *name;
    void (*run)(Shown &);
};

static const Case cases[] = {
    {"empty", empty},
    {"two_phases", two_phases},
    {"one_phase", one_phase},
    {"one_phase_refused", one_phase_refused},
    {"one_phase_hazard", one_phase_hazard},
    {"read_only", read_only},
    {"all_read_only", all_read_only},
    {"vote_rollback", vote_rollback},
    {"prepare_fault", prepare_fault},
    {"rolled_back", rolled_back},
    {"marked", marked},
    {"sub_committed", sub_committed},
    {"sub_rolled_back", sub_rolled_back},
    {"subs_of_subs", subs_of_subs},
    {"sub_balks", sub_balks},
    {"relations", relations},
    {"synchronizations", synchronizations},
    {"synchronization_balks", synchronization_balks},
    {"heuristics", heuristics},
    {"told_again", told_again},
    {"called_back", called_back},
    {"time_over", time_over},
    {"contexts", contexts},
    {"after_the_end", after_the_end},
    {"replays", replays},
    {"objects", objects},
    {"crowd", crowd},
};

static void run(const Case &one) {
    Shown shown;
    try {
        notes.take();
        one.run(shown);
    } catch (const CORBA::Exception &raised) {
        shown << std::string("raised ") + raised._rep_id();
    }
    std::cout << one.name << ": " << shown.text << std::endl;
}

// Waits until this was told, for some seconds at most.
static void wait_for(const std::string &word) {
    for (int turn = 0; turn < 100 && notes.look().find(word) == std::string::npos; turn++) usleep(100000);
}

// A reference to the same object, of which the ORB knows nothing yet: it asks where the object is before the first call.
static RecoveryCoordinator_ptr anew(RecoveryCoordinator_ptr known) {
    CORBA::String_var text = orb->object_to_string(known);
    CORBA::Object_var object = orb->string_to_object(text);
    return RecoveryCoordinator::_unchecked_narrow(object);
}

// Kills the service inside a commit, has it started again, and asks what was decided, as a prepared resource does. The first
// resource is busy until then, so that the decision stands.
static void crash(pid_t service, const std::string &restart) {
    Shown shown;
    std::atomic<bool> killed{false}, busy{true};
    Bidding kills;
    kills.at_commit = [&] {
        if (!killed.exchange(true)) kill(service, SIGKILL);
        if (busy) throw CORBA::TRANSIENT();
    };
    Resource_var mine = activated<CosTransactions::Resource>(new PlainResource("a", kills));
    Resource_var other = activated<CosTransactions::Resource>(new PlainResource("b", Bidding()));
    Transaction t = Transaction::begin();
    RecoveryCoordinator_var a = t.coordinator->register_resource(mine), b = t.coordinator->register_resource(other);
    shown << t.commit();
    shown.told() << (system(restart.c_str()) == 0 ? "restarted" : "not restarted");
    wait_for("commit b");
    RecoveryCoordinator_var again = anew(b);
    shown << outcome([&] { shown << word_of(again->replay_completion(other)); });
    shown << outcome([&] { again->replay_completion(mine); });
    shown << "there " + flag(!again->_non_existent()) + " " + flag(!t.terminator->_non_existent()) + " " +
                 flag(!t.coordinator->_non_existent()) << t.commit();
    busy = false;
    for (int turn = 0; turn < 100 && !again->_non_existent(); turn++) usleep(100000);
    shown.told() << "there " + flag(!again->_non_existent());
    shown << outcome([&] { again->replay_completion(other); });
    std::cout << "crash: " << shown.text << std::endl;
}

int main(int argc, char **argv) {
    try {
        orb = CORBA::ORB_init(argc, argv);
        CORBA::Object_var root = orb->resolve_initial_references("RootPOA");
        PortableServer::POA_var poa = PortableServer::POA::_narrow(root);
        PortableServer::POAManager_var manager = poa->the_POAManager();
        manager->activate();
        CORBA::Object_var object = orb->string_to_object(argc > 1 ? argv[1] : "");
        factory = TransactionFactory::_narrow(object);
        if (CORBA::is_nil(factory)) {
            std::cerr << "client: no factory" << std::endl;
            return 1;
        }
        if (argc > 4 && std::string(argv[2]) == "crash") {
            crash(atoi(argv[3]), argv[4]);
        } else {
            for (const Case &one : cases) {
                bool wanted = argc <= 2;
                for (int word = 2; word < argc; word++) wanted = wanted || one.name == std::string(argv[word]);
                if (wanted) run(one);
            }
        }
        orb->destroy();
        return 0;
    } catch (const CORBA::Exception &raised) {
        std::cerr << "client: " << raised._rep_id() << std::endl;
        return 1;
    }
}
