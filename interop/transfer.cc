// A client of a transaction service and of two ends over omniORB: it puts values into cells of both under one transaction, and
// prints a line for each case. `transfer SERVICE FIRST SECOND` runs all cases, `transfer SERVICE FIRST SECOND CASE ..` these.
// The first three words are the references that the parties wrote.
#include "Cells.hh"
#include "objects.h"
#include "within.h"

#include <atomic>
#include <iostream>
#include <map>
#include <stdlib.h>
#include <thread>
#include <unistd.h>
#include <vector>

using namespace CosTransactions;
typedef CORBA::ULongLong Number;

static CORBA::ORB_var orb;
static TransactionFactory_var factory;
static Cells_var ends[2];
static const int first = 0, second = 1;

static Transaction begin(CORBA::ULong seconds = 0) {
    return Transaction(factory->create(seconds));
}

static std::string commit(const Transaction &t) {
    return outcome([&] { t.terminator->commit(true); });
}
static std::string rollback(const Transaction &t) {
    return outcome([&] { t.terminator->rollback(); });
}
static std::string status(const Transaction &t) { return word_of(t.coordinator->get_status()); }

// A put and a get of the transaction with this context.
static std::string put(const PropagationContext &context, int end, Number cell, Number value) {
    Within within(context);
    return outcome([&] { ends[end]->put(cell, value); });
}
static std::string stored(int end, Number cell) {
    std::string shown;
    std::string end_of_call = outcome([&] {
        Number value;
        shown = ends[end]->get(cell, value) ? std::to_string(value) : "none";
    });
    return shown.empty() ? end_of_call : shown;
}
static std::string get(const PropagationContext &context, int end, Number cell) {
    Within within(context);
    return stored(end, cell);
}
static std::string put(const Transaction &t, int end, Number cell, Number value) {
    return put(t.context(), end, cell, value);
}
static std::string get(const Transaction &t, int end, Number cell) { return get(t.context(), end, cell); }

// What both ends have stored in their cell of this number.
static std::string both(Number cell) { return stored(first, cell) + " " + stored(second, cell); }

// A value put by a transaction of its own, which is rolled back: whether the cell is free.
static std::string probe(int end, Number cell) {
    Transaction t = begin();
    std::string answer = put(t, end, cell, 99);
    return rollback(t) == "ok" ? answer : "no rollback";
}

// Puts 1 into a cell of each end, under one transaction.
static Transaction with_puts(Number cell, CORBA::ULong seconds = 0) {
    Transaction t = begin(seconds);
    put(t, first, cell, 1);
    put(t, second, cell, 1);
    return t;
}

// Each case has cells of its own, of which this is the first.
typedef Number Cell;

static void committed(Shown &shown, Cell cell) {
    shown << both(cell);
    Transaction t = begin();
    shown << put(t, first, cell, 70) << put(t, second, cell, 130);
    shown << get(t, first, cell) + " " + get(t, second, cell) << both(cell);
    shown << commit(t) << both(cell);
    shown << status(t);
}

static void rolled_back(Shown &shown, Cell cell) {
    commit(with_puts(cell));
    Transaction t = begin();
    shown << put(t, first, cell, 2) << put(t, second, cell, 2) << rollback(t) << both(cell);
    shown << probe(first, cell) << probe(second, cell);
}

static void one_phase(Shown &shown, Cell cell) {
    Transaction t = begin();
    shown << put(t, first, cell, 1) << put(t, first, cell + 1, 2) << commit(t);
    shown << stored(first, cell) << stored(first, cell + 1);
    Transaction u = begin();
    shown << put(u, first, cell, 3) << rollback(u) << stored(first, cell) << probe(first, cell);
}

static void read_only(Shown &shown, Cell cell) {
    commit(with_puts(cell));
    Transaction t = begin();
    shown << get(t, first, cell) + " " + get(t, second, cell) << probe(first, cell) << commit(t);
    Transaction u = begin();
    shown << get(u, first, cell) << put(u, second, cell, 2) << commit(u) << both(cell);
}

static void put_again(Shown &shown, Cell cell) {
    Transaction t = begin();
    shown << put(t, first, cell, 1) << put(t, first, cell, 2) << put(t, first, cell, 3) << get(t, first, cell);
    shown << commit(t) << stored(first, cell);
}

static void who_sees(Shown &shown, Cell cell) {
    commit(with_puts(cell));
    Transaction t = begin(), other = begin();
    put(t, first, cell, 2);
    put(other, first, cell + 1, 3);
    shown << get(t, first, cell) << get(other, first, cell) << stored(first, cell);
    shown << get(t, first, cell + 1) << get(other, first, cell + 1) << get(t, second, cell);
    shown << commit(t) << get(other, first, cell) << commit(other) << stored(first, cell + 1);
}

static void held(Shown &shown, Cell cell) {
    Transaction t = begin(), other = begin();
    shown << put(t, first, cell, 1) << put(other, first, cell, 2) << put(other, second, cell, 2);
    shown << put(other, first, cell + 1, 2) << put(t, first, cell + 1, 1);
    shown << commit(t) << put(other, first, cell, 2) << commit(other) << both(cell) << stored(first, cell + 1);
    Transaction u = begin(), next = begin();
    shown << put(u, first, cell, 3) << put(next, first, cell, 4) << rollback(u) << put(next, first, cell, 4);
    shown << commit(next) << both(cell);
}

static void no_context(Shown &shown, Cell cell) {
    shown << outcome([&] { ends[first]->put(cell, 1); }) << stored(first, cell) << probe(first, cell);
}

static void marked(Shown &shown, Cell cell) {
    Transaction t = begin();
    shown << put(t, first, cell, 1);
    t.coordinator->rollback_only();
    shown << put(t, first, cell + 1, 2) << put(t, second, cell, 1) << get(t, first, cell) << probe(second, cell);
    shown << commit(t) << both(cell) << probe(first, cell);
}

// A put of a transaction that has ended, at an end that it knows and at one that it doesn't.
static void behind_the_end(Shown &shown, Cell cell) {
    for (bool commits : {true, false}) {
        Transaction t = begin();
        shown << put(t, first, cell, 1);
        PropagationContext context = t.context();
        shown << (commits ? commit(t) : rollback(t)) << put(context, first, cell, 2) << put(context, second, cell, 2);
        shown << get(context, first, cell) << both(cell) << probe(first, cell) << probe(second, cell);
    }
}

// A put of a transaction that is gone altogether: its slot is used again, or never was.
static void gone(Shown &shown, Cell cell) {
    Transaction t = begin();
    PropagationContext context = t.context();
    rollback(t);
    for (int turn = 0; turn < 300; turn++) rollback(begin());
    shown << put(context, first, cell, 1) << get(context, first, cell) << probe(first, cell);
}

// The context with another reference as its coordinator.
static PropagationContext led_by(const Transaction &t, const char *reference) {
    PropagationContext context = t.context();
    CORBA::Object_var object = orb->string_to_object(reference);
    context.current.coord = Coordinator::_unchecked_narrow(object);
    return context;
}

static void lost(Shown &shown, Cell cell) {
    Transaction t = begin();
    PropagationContext nowhere = led_by(t, "corbaloc:iiop:1.2@127.0.0.1:1/none");
    shown << get(nowhere, first, cell) << put(nowhere, first, cell, 1) << probe(first, cell);
    shown << put(t, first, cell, 2) << commit(t) << stored(first, cell);
}

static void misled(Shown &shown, Cell cell) {
    Transaction t = begin();
    CORBA::String_var control = orb->object_to_string(t.control), cells = orb->object_to_string(ends[first]);
    CORBA::String_var nil = orb->object_to_string(CORBA::Object::_nil());
    for (const char *reference : {control.in(), cells.in(), nil.in()}) {
        shown << put(led_by(t, reference), first, cell, 1) << probe(first, cell);
    }
    shown << put(t, first, cell, 2) << commit(t) << stored(first, cell);
}

static CORBA::OctetSeq octets_of(const std::string &text) {
    CORBA::OctetSeq octets;
    octets.length(text.size());
    for (size_t place = 0; place < text.size(); place++) octets[place] = text[place];
    return octets;
}

static void garbled(Shown &shown, Cell cell) {
    for (const char *text : {"", "x", "\1abc"}) {
        Within within(octets_of(text));
        shown << outcome([&] { ends[first]->put(cell, 1); }) << stored(first, cell);
    }
    shown << probe(first, cell);
}

// A resource of the client, which is asked behind those of both ends, and puts and gets then.
static void behind_prepare(Shown &shown, Cell cell) {
    for (Vote vote : {VoteCommit, VoteRollback}) {
        Transaction t = with_puts(cell);
        PropagationContext context = t.context();
        Bidding asks;
        asks.vote = vote;
        asks.at_prepare = [&] {
            notes.note(put(context, first, cell, 2));
            notes.note(put(context, second, cell + 1, 3));
            notes.note(get(context, first, cell) + " " + stored(first, cell));
            notes.note(probe(first, cell));
        };
        Resource_var mine = activated<CosTransactions::Resource>(new PlainResource("mine", asks));
        RecoveryCoordinator_var recovery = t.coordinator->register_resource(mine);
        shown << commit(t);
        shown.told() << both(cell) << both(cell + 1);
        shown << probe(first, cell) << probe(second, cell);
        cell += 10;
    }
}

// One at which the resource of the client puts, when it is asked before that of the end.
static void before_prepare(Shown &shown, Cell cell) {
    Transaction t = begin();
    PropagationContext context = t.context();
    Bidding asks;
    asks.at_prepare = [&] {
        notes.note(put(context, first, cell, 2));
        notes.note(put(context, second, cell, 2));
    };
    Resource_var mine = activated<CosTransactions::Resource>(new PlainResource("mine", asks));
    RecoveryCoordinator_var recovery = t.coordinator->register_resource(mine);
    shown << put(t, first, cell, 1) << commit(t);
    shown.told() << both(cell) << probe(second, cell);
}

static void time_over(Shown &shown, Cell cell) {
    Transaction t = with_puts(cell, 1);
    shown << get(t, first, cell) + " " + get(t, second, cell);
    for (int turn = 0; turn < 50 && (probe(first, cell) != "ok" || probe(second, cell) != "ok"); turn++) usleep(100000);
    shown << status(t) << both(cell) << commit(t) << probe(first, cell) << probe(second, cell);
}

static void sub_committed(Shown &shown, Cell cell) {
    Transaction t = begin();
    Transaction s = t.sub();
    shown << put(s, first, cell, 1) << put(s, second, cell, 2) << get(s, first, cell) << get(t, first, cell);
    shown << commit(s) << get(s, first, cell) << get(t, first, cell) << put(t, first, cell, 3) << both(cell);
    shown << put(t, first, cell + 1, 4) << commit(t) << both(cell) << stored(first, cell + 1);
}

static void sub_rolled_back(Shown &shown, Cell cell) {
    Transaction t = begin();
    Transaction s = t.sub();
    shown << put(s, first, cell, 1) << put(s, second, cell, 2) << rollback(s) << get(t, first, cell);
    shown << put(t, first, cell, 3) << commit(t) << both(cell) << probe(second, cell);
}

static void sub_of_parent_that_rolls_back(Shown &shown, Cell cell) {
    Transaction t = begin();
    Transaction s = t.sub();
    shown << put(s, first, cell, 1) << put(t, second, cell, 2) << commit(s) << rollback(t) << both(cell);
    shown << probe(first, cell) << probe(second, cell);
}

static void sub_left_open(Shown &shown, Cell cell) {
    Transaction t = begin();
    Transaction s = t.sub();
    shown << put(s, first, cell, 1) << put(t, second, cell, 2) << commit(t) << both(cell) << probe(first, cell);
}

static void sub_beside_parent(Shown &shown, Cell cell) {
    Transaction t = begin();
    Transaction s = t.sub(), other = t.sub();
    shown << put(t, first, cell, 1) << put(s, first, cell, 2) << put(s, first, cell + 1, 3);
    shown << put(other, first, cell + 1, 4) << get(s, first, cell) << commit(s) << put(other, first, cell + 1, 4);
    shown << put(other, first, cell + 2, 5) << commit(other) << commit(t);
    for (Cell place : {cell, cell + 1, cell + 2}) shown << stored(first, place);
}

static void sub_of_sub(Shown &shown, Cell cell) {
    Transaction t = begin();
    Transaction s = t.sub();
    Transaction u = s.sub(), v = s.sub();
    shown << put(u, first, cell, 1) << put(v, second, cell, 2) << put(s, first, cell + 1, 3);
    shown << commit(u) << rollback(v) << get(s, first, cell) << commit(s) << commit(t) << both(cell);
    shown << stored(first, cell + 1) << probe(second, cell);
}

// Subtransactions below each other, as deep as there can be, and a put by the lowest.
static void deepest(Shown &shown, Cell cell) {
    std::vector<Transaction> line{begin()};
    std::string refused = "ok";
    while (refused == "ok") refused = outcome([&] { line.push_back(line.back().sub()); });
    shown << std::to_string(line.size()) + " transactions, then " + refused;
    shown << "parents " + std::to_string(line.back().context().parents.length());
    shown << put(line.back(), first, cell, 1) << put(line.back(), second, cell, 1) << put(line.front(), first, cell + 1, 2);
    int committed = 0;
    for (auto below = line.rbegin(); below != line.rend(); ++below) committed += commit(*below) == "ok";
    shown << "committed " + std::to_string(committed) << both(cell) << stored(first, cell + 1);
}

static void widest(Shown &shown, Cell) {
    Number most = ~Number(0);
    Transaction t = begin();
    shown << put(t, first, most, most) << put(t, first, 0, 0) << get(t, first, most) << commit(t);
    shown << stored(first, most) << stored(first, 0) << stored(second, 0);
}

static void many_cells(Shown &shown, Cell cell) {
    Transaction t = begin();
    std::map<std::string, int> answers;
    for (Cell place = cell + 1100; place > cell; place--) answers[put(t, first, place, place - cell)]++;
    for (auto &answer : answers) shown << answer.first + " " + std::to_string(answer.second);
    shown << put(t, first, cell + 1100, 7) << commit(t);
    shown << stored(first, cell + 1100) << stored(first, cell + 77) << stored(first, cell + 76);
}

static void many_transactions(Shown &shown, Cell cell) {
    std::vector<Transaction> all;
    for (int number = 0; number < 100; number++) all.push_back(with_puts(cell + number));
    std::map<std::string, int> ends_of;
    for (int number = 0; number < 100; number++)
        ends_of[number % 2 ? "commit " + commit(all[number]) : "rollback " + rollback(all[number])]++;
    for (auto &end : ends_of) shown << end.first + " " + std::to_string(end.second);
    shown << both(cell + 98) << both(cell + 99);
}

// Several threads that put at once: in one transaction, where the first one's registration is still out, and in their own.
static void crowd(Shown &shown, Cell cell) {
    Transaction shared = begin();
    std::map<std::string, int> answers;
    std::mutex lock;
    std::vector<std::thread> threads;
    for (int client = 0; client < 16; client++)
        threads.emplace_back([&, client] {
            std::string answer;
            for (int turn = 0; turn < 500 && answer != "ok"; turn++) answer = put(shared, first, cell + client, client);
            for (int turn = 0; turn < 5; turn++) {
                Transaction own = begin();
                put(own, first, cell + 100 + client, turn);
                put(own, second, cell + 100 + client, turn);
                answer += ", " + (turn == client % 5 ? "rollback " + rollback(own) : "commit " + commit(own));
            }
            std::lock_guard<std::mutex> guard(lock);
            answers[answer]++;
        });
    for (auto &thread : threads) thread.join();
    int oks = 0;
    for (auto &answer : answers) oks += answer.first.rfind("ok, ", 0) == 0 ? answer.second : 0;
    shown << "shared " + std::to_string(oks) + " " + commit(shared) << both(cell + 100) << both(cell + 104);
    int right = 0;
    for (int client = 0; client < 16; client++) right += stored(first, cell + client) == std::to_string(client);
    shown << "stored " + std::to_string(right);
}

// The object with this key, where the first end is.
static CORBA::Object_ptr object_of(const std::string &key) {
    return orb->string_to_object(("corbaloc:iiop:1.2@127.0.0.1:" + std::string(getenv("OTS_PORT")) + "/" + key).c_str());
}

static void objects(Shown &shown, Cell) {
    Cells_ptr cells = ends[first];
    shown << flag(cells->_is_a("IDL:ots.local/Cells:1.0")) + " " + flag(cells->_is_a("IDL:omg.org/CORBA/Object:1.0")) + " " +
                 flag(cells->_is_a("IDL:omg.org/CosTransactions/Resource:1.0")) + " " + flag(cells->_non_existent());
    std::string rest = "%00%00%00%00%00%00%00%08%00%00%00%00%00%00%00%00%00%00%00%00%00%00%00%00%00%00%00%00";
    std::string other = rest, resource = rest;
    other.replace(21, 3, "%09");
    CORBA::Object_var named = object_of("OTSD" + rest), foreign = object_of("OTSD" + other);
    CORBA::Object_var unknown = object_of("OTSR" + rest), factory_there = object_of("OTSF" + rest);
    shown << outcome([&] { shown << flag(named->_is_a("IDL:ots.local/Cells:1.0")); });
    for (CORBA::Object_var *object : {&foreign, &unknown, &factory_there}) {
        shown << outcome([&] { shown << flag((*object)->_non_existent()); });
        shown << outcome([&] { (*object)->_is_a("IDL:ots.local/Cells:1.0"); });
    }
    Resource_var wrong = CosTransactions::Resource::_unchecked_narrow(named);
    Resource_var none = CosTransactions::Resource::_unchecked_narrow(unknown);
    shown << outcome([&] { wrong->commit(); }) << outcome([&] { none->commit(); }) << outcome([&] { none->prepare(); });
}

// Has a party killed and begun again. Calls to it then find that the connections of before are lost.
static std::string restart(const char *party) {
    std::string command = "bash " + std::string(getenv("OTS_RESTART")) + " " + party;
    if (system(command.c_str()) != 0) return std::string(party) + " gone";
    CORBA::Object_ptr object = party == std::string("service") ? CORBA::Object_ptr(factory)
                               : party == std::string("first") ? CORBA::Object_ptr(ends[first])
                                                               : CORBA::Object_ptr(ends[second]);
    for (int turn = 0; turn < 10 && outcome([&] { object->_non_existent(); }) != "ok"; turn++) continue;
    return std::string(party) + " again";
}

// Waits until this was told, for some seconds at most.
static void wait_for(const std::string &word) {
    for (int turn = 0; turn < 100 && notes.look().find(word) == std::string::npos; turn++) usleep(100000);
}

// An end that forgets what wasn't prepared: the transaction can't commit, though it puts there again.
static void end_restarted(Shown &shown, Cell cell) {
    Transaction t = with_puts(cell);
    shown << restart("first") << get(t, first, cell) << put(t, first, cell, 2) << commit(t) << both(cell);
    shown << probe(first, cell) << probe(second, cell);
    Transaction u = begin();
    shown << put(u, first, cell, 3) << restart("first") << commit(u) << stored(first, cell) << probe(first, cell);
    Transaction v = begin();
    shown << put(v, first, cell, 4) << commit(v) << restart("first") << stored(first, cell) << probe(first, cell);
}

// An end that is killed inside a commit, once it has prepared: it learns the outcome when it is there again.
static void end_restarted_prepared(Shown &shown, Cell cell) {
    for (Vote vote : {VoteCommit, VoteRollback}) {
        Transaction t = with_puts(cell);
        Bidding asks;
        asks.vote = vote;
        asks.at_prepare = [&] { notes.note(restart("first") + ", " + probe(first, cell) + ", " + stored(first, cell)); };
        Resource_var mine = activated<CosTransactions::Resource>(new PlainResource("mine", asks));
        RecoveryCoordinator_var recovery = t.coordinator->register_resource(mine);
        shown << commit(t);
        shown.told() << both(cell) << probe(first, cell);
        cell += 10;
    }
}

// A service that is killed before its resources were asked, and behind that. Ends whose resources have prepared ask it for the
// outcome; others hold their cells until they begin again.
static void service_restarted(Shown &shown, Cell cell) {
    Transaction t = with_puts(cell);
    PropagationContext context = t.context();
    shown << restart("service") << commit(t) << probe(first, cell) << probe(second, cell);
    shown << put(context, first, cell, 2) << get(context, first, cell);
    shown << restart("first") << restart("second") << probe(first, cell) << probe(second, cell) << both(cell);
    Transaction u = with_puts(cell);
    Bidding kills;
    kills.at_prepare = [&] { notes.note(restart("service")); };
    Resource_var mine = activated<CosTransactions::Resource>(new PlainResource("mine", kills));
    RecoveryCoordinator_var recovery = u.coordinator->register_resource(mine);
    shown << commit(u);
    wait_for("service again");
    shown.told();
    for (int turn = 0; turn < 50 && (probe(first, cell) != "ok" || probe(second, cell) != "ok"); turn++) usleep(100000);
    shown << both(cell) << probe(first, cell) << probe(second, cell);
}

// The same behind the decision: it is told again.
static void service_restarted_decided(Shown &shown, Cell cell) {
    Transaction t = begin();
    Bidding kills;
    std::atomic<bool> killed{false};
    kills.at_commit = [&] {
        if (!killed.exchange(true)) notes.note(restart("service") + ", " + both(cell));
    };
    Resource_var mine = activated<CosTransactions::Resource>(new PlainResource("mine", kills));
    RecoveryCoordinator_var recovery = t.coordinator->register_resource(mine);
    put(t, first, cell, 1);
    put(t, second, cell, 1);
    shown << commit(t);
    wait_for("service again");
    for (int turn = 0; turn < 50 && both(cell) != "1 1"; turn++) usleep(100000);
    shown.told() << both(cell) << probe(first, cell) << probe(second, cell);
}

struct Case {
    const char *name;
    void (*run)(Shown &, Cell);
};

static const Case cases[] = {
    {"committed", committed},
    {"rolled_back", rolled_back},
    {"one_phase", one_phase},
    {"read_only", read_only},
    {"put_again", put_again},
    {"who_sees", who_sees},
    {"held", held},
    {"no_context", no_context},
    {"marked", marked},
    {"behind_the_end", behind_the_end},
    {"gone", gone},
    {"lost", lost},
    {"misled", misled},
    {"garbled", garbled},
    {"behind_prepare", behind_prepare},
    {"before_prepare", before_prepare},
    {"time_over", time_over},
    {"sub_committed", sub_committed},
    {"sub_rolled_back", sub_rolled_back},
    {"sub_of_parent_that_rolls_back", sub_of_parent_that_rolls_back},
    {"sub_left_open", sub_left_open},
    {"sub_beside_parent", sub_beside_parent},
    {"sub_of_sub", sub_of_sub},
    {"deepest", deepest},
    {"widest", widest},
    {"many_cells", many_cells},
    {"many_transactions", many_transactions},
    {"crowd", crowd},
    {"objects", objects},
    {"end_restarted", end_restarted},
    {"end_restarted_prepared", end_restarted_prepared},
    {"service_restarted", service_restarted},
    {"service_restarted_decided", service_restarted_decided},
};

static void run(const Case &one, Cell cell) {
    Shown shown;
    try {
        notes.take();
        one.run(shown, cell);
    } catch (const CORBA::Exception &raised) {
        shown << std::string("raised ") + raised._rep_id();
    }
    std::cout << one.name << ": " << shown.text << std::endl;
}

int main(int argc, char **argv) {
    try {
        orb = CORBA::ORB_init(argc, argv);
        Within::install();
        CORBA::Object_var root = orb->resolve_initial_references("RootPOA");
        PortableServer::POA_var poa = PortableServer::POA::_narrow(root);
        PortableServer::POAManager_var manager = poa->the_POAManager();
        manager->activate();
        CORBA::Object_var objects[3];
        for (int word = 0; word < 3; word++) objects[word] = orb->string_to_object(word + 1 < argc ? argv[word + 1] : "");
        factory = TransactionFactory::_narrow(objects[0]);
        for (int end : {first, second}) ends[end] = Cells::_narrow(objects[end + 1]);
        if (CORBA::is_nil(factory) || CORBA::is_nil(ends[first]) || CORBA::is_nil(ends[second])) {
            std::cerr << "transfer: a party is missing" << std::endl;
            return 1;
        }
        Cell cell = 0;
        for (const Case &one : cases) {
            bool wanted = argc <= 4;
            for (int word = 4; word < argc; word++) wanted = wanted || one.name == std::string(argv[word]);
            cell += 10000;
            if (wanted) run(one, cell);
        }
        orb->destroy();
        return 0;
    } catch (const CORBA::Exception &raised) {
        std::cerr << "transfer: " << raised._rep_id() << std::endl;
        return 1;
    }
}
