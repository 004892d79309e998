// What steps.sh asks of a client over omniORB: `teller SERVICE FIRST SECOND set` puts 100 into cell 1 of the first end and
// cell 2 of the second, `.. move` moves 30 from the one to the other and says what it was told, and `.. look SECONDS` waits
// for so long at most until both cells are free, and says what they hold and which are free. Both ends may be the same.
#include "Cells.hh"
#include "objects.h"
#include "within.h"

#include <iostream>
#include <stdlib.h>
#include <unistd.h>

using namespace CosTransactions;
typedef CORBA::ULongLong Number;

static TransactionFactory_var factory;
static Cells_var ends[2];

static Number stored(int end) {
    Number value = 0;
    return ends[end]->get(end + 1, value) ? value : 0;
}

// Commits these values as those of both cells, and says what was told.
static std::string commit(Number first, Number second) {
    Terminator_var terminator;
    try {
        Transaction t(factory->create(60));
        terminator = t.terminator;
        PropagationContext context = t.context();
        Within within(context);
        ends[0]->put(1, first);
        ends[1]->put(2, second);
    } catch (const CORBA::Exception &raised) {
        if (!CORBA::is_nil(terminator)) outcome([&] { terminator->rollback(); });
        return "rolled back";
    }
    std::string told = outcome([&] { terminator->commit(true); });
    return told == "ok" ? told : told == "TRANSACTION_ROLLEDBACK YES" ? "rolled back" : "not known, " + told;
}

static std::string move() {
    Number first = 0, second = 0;
    if (outcome([&] { first = stored(0), second = stored(1); }) != "ok") return "rolled back";
    return commit(first - 30, second + 30);
}

// Whether nobody holds the cell: a transaction that is rolled back may put there.
static bool is_free(int end) {
    std::string answer;
    outcome([&] {
        Transaction t(factory->create(60));
        PropagationContext context = t.context();
        {
            Within within(context);
            answer = outcome([&] { ends[end]->put(end + 1, 0); });
        }
        t.terminator->rollback();
    });
    return answer == "ok";
}

static std::string look(int seconds) {
    bool free[2] = {false, false};
    for (int turn = 0; turn < 10 * seconds && !(free[0] && free[1]); turn++) {
        if (turn > 0) usleep(100000);
        for (int end : {0, 1}) free[end] = free[end] || is_free(end);
    }
    std::string cells;
    std::string end = outcome([&] { cells = std::to_string(stored(0)) + " " + std::to_string(stored(1)); });
    return (end == "ok" ? cells : end) + (free[0] ? " free" : " held") + (free[1] ? " free" : " held");
}

int main(int argc, char **argv) {
    try {
        CORBA::ORB_var orb = CORBA::ORB_init(argc, argv);
        Within::install();
        if (argc < 5) return 2;
        CORBA::Object_var objects[3];
        for (int word = 0; word < 3; word++) objects[word] = orb->string_to_object(argv[word + 1]);
        factory = TransactionFactory::_unchecked_narrow(objects[0]);
        for (int end : {0, 1}) ends[end] = Cells::_unchecked_narrow(objects[end + 1]);
        std::string word(argv[4]);
        std::cout << (word == "set" ? commit(100, 100) : word == "move" ? move() : look(argc > 5 ? atoi(argv[5]) : 0))
                  << std::endl;
        return 0;
    } catch (const CORBA::Exception &raised) {
        std::cerr << "teller: " << raised._rep_id() << std::endl;
        return 1;
    }
}
