// Threads that put into two ends while another thread ends their transaction: `rush SERVICE FIRST SECOND ROUNDS`. A put that
// is answered ok must be stored where the transaction has committed, no other may be, and behind its end no cell may be held.
#include "Cells.hh"
#include "objects.h"
#include "within.h"

#include <iostream>
#include <map>
#include <random>
#include <stdlib.h>
#include <thread>
#include <unistd.h>
#include <vector>

using namespace CosTransactions;
typedef CORBA::ULongLong Number;

static TransactionFactory_var factory;
static Cells_var ends[2];
static const int threads = 8, put_count = 2 * threads;
static std::map<std::string, int> answers;
static int rounds_held = 0, lost = 0, wrongly_stored = 0;

static std::string put(const PropagationContext &context, int end, Number cell, Number value) {
    Within within(context);
    return outcome([&] { ends[end]->put(cell, value); });
}

// Puts into the cell of one end and then of the other, and notes what that was answered. Where the end says so it tries again.
static void put_both(const PropagationContext &context, int number, Number cell, std::string *answer) {
    for (int turn : {0, 1}) {
        std::string &mine = answer[2 * number + turn];
        for (int tries = 0; tries < 20 && (mine.empty() || mine == "TRANSIENT NO"); tries++)
            mine = put(context, (number + turn) % 2, cell + number, 1);
    }
}

static bool is_stored(int end, Number cell) {
    Number value = 0;
    return ends[end]->get(cell, value);
}

// Whether each cell is free.
static bool are_free(Number cell) {
    Transaction t(factory->create(0));
    PropagationContext context = t.context();
    bool free = true;
    for (int end : {0, 1})
        for (int number = 0; number < threads; number++) free = free && put(context, end, cell + number, 2) == "ok";
    t.terminator->rollback();
    return free;
}

static void one(std::mt19937 &random, Number cell) {
    Transaction t(factory->create(0));
    PropagationContext context = t.context();
    std::string answer[put_count];
    std::vector<std::thread> all;
    for (int number = 0; number < threads; number++)
        all.emplace_back(put_both, std::cref(context), number, cell, answer);
    usleep(random() % 3000);
    bool commits = random() % 4 > 0;
    std::string told = outcome([&] { commits ? t.terminator->commit(true) : t.terminator->rollback(); });
    for (auto &thread : all) thread.join();
    answers[(commits ? "commit " : "rollback ") + told]++;
    for (int number = 0; number < threads; number++)
        for (int turn : {0, 1}) {
            const std::string &mine = answer[2 * number + turn];
            bool stored = is_stored((number + turn) % 2, cell + number), committed = commits && told == "ok";
            answers["put " + mine]++;
            lost += committed && mine == "ok" && !stored;
            wrongly_stored += stored && !(committed && mine == "ok");
        }
    rounds_held += !are_free(cell);
}

int main(int argc, char **argv) {
    try {
        CORBA::ORB_var orb = CORBA::ORB_init(argc, argv);
        Within::install();
        if (argc < 5) return 2;
        CORBA::Object_var objects[3];
        for (int word = 0; word < 3; word++) objects[word] = orb->string_to_object(argv[word + 1]);
        factory = TransactionFactory::_unchecked_narrow(objects[0]);
        for (int end : {0, 1}) ends[end] = Cells::_unchecked_narrow(objects[end + 1]);
        std::mt19937 random(getpid());
        for (int round = 1; round <= atoi(argv[4]); round++) one(random, 100 * round);
        for (auto &answer : answers) std::cout << answer.first << ": " << answer.second << std::endl;
        std::cout << "puts answered ok and lost: " << lost << "; stored otherwise: " << wrongly_stored
                  << "; rounds behind which a cell was held: " << rounds_held << std::endl;
        return lost || wrongly_stored || rounds_held ? 1 : 0;
    } catch (const CORBA::Exception &raised) {
        std::cerr << "rush: " << raised._rep_id() << std::endl;
        return 1;
    }
}
