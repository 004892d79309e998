// Clients that move amounts among cells of two ends, through kills of the service and of the ends: `shuffle SERVICE FIRST
// SECOND CLIENTS SECONDS HELD`. Some changes are made by subtransactions. In the end the sum must be as before, both cells of
// each move must have changed or none, and what a client was told must be so. Cells that stay held are counted: then the file
// HELD is made, and once it is gone again, since both ends have begun anew, the rest is looked at.
//
// The value of a cell is an amount and the number of the move that wrote it. So from the last value of a cell one finds back,
// by what each move had read, to the first, and knows which moves have changed it.
#include "Cells.hh"
#include "objects.h"
#include "within.h"

#include <atomic>
#include <fstream>
#include <iostream>
#include <map>
#include <random>
#include <thread>
#include <unistd.h>
#include <vector>

using namespace CosTransactions;
typedef CORBA::ULongLong Number;

static TransactionFactory_var factory;
static Cells_var ends[2];
static const int count = 16, amount_at_first = 1000;

struct Place {
    int end, cell;
    bool operator<(const Place &other) const { return end != other.end ? end < other.end : cell < other.cell; }
};

static Number value_of(Number amount, Number move) { return amount << 32 | move; }
static Number amount_in(Number value) { return value >> 32; }
static Number move_in(Number value) { return value & 0xffffffff; }

enum Told { Plain, Rolled, Unknown };

struct Move {
    Number number;
    Place places[2];
    Number before[2], after[2];
    Told told;
};

static std::mutex lock;
static std::map<Number, Move> moves;
static std::atomic<Number> numbers{0};
static std::atomic<int> refused{0}, failed{0};

static Number stored(const Place &place) {
    Number value = 0;
    ends[place.end]->get(place.cell, value);
    return value;
}

static void put(const PropagationContext &context, const Place &place, Number value) {
    Within within(context);
    ends[place.end]->put(place.cell, value);
}

// Holds the cell for the transaction, reads what is stored in it, which stays so, and puts the new value.
static void change(const PropagationContext &context, Move &move, int side, Number amount) {
    const Place &place = move.places[side];
    put(context, place, value_of(0xffffffff, move.number));
    move.before[side] = stored(place);
    Number has = amount_in(move.before[side]);
    move.after[side] = value_of(side == 0 ? has - amount : has + amount, move.number);
    put(context, place, move.after[side]);
}

// The same by a subtransaction, maybe behind one that is rolled back.
static void change_below(const Transaction &t, Move &move, int side, Number amount, bool again) {
    if (again) {
        Transaction vain = t.sub();
        change(vain.context(), move, side, amount + 1);
        vain.terminator->rollback();
    }
    Transaction sub = t.sub();
    change(sub.context(), move, side, amount);
    sub.terminator->commit(true);
}

static void end(const Transaction &t, Move &move, bool commits) {
    std::string told = outcome([&] { commits ? t.terminator->commit(true) : t.terminator->rollback(); });
    move.told = told == "TRANSACTION_ROLLEDBACK YES" || !commits ? Rolled : told == "ok" ? Plain : Unknown;
    std::lock_guard<std::mutex> guard(lock);
    moves[move.number] = move;
}

static void one(std::mt19937 &random) {
    Move move;
    move.number = ++numbers;
    do {
        for (Place &place : move.places) place = {int(random() % 2), int(random() % count)};
    } while (!(move.places[0] < move.places[1]) && !(move.places[1] < move.places[0]));
    Terminator_var terminator;
    try {
        Transaction t(factory->create(20));
        terminator = t.terminator;
        PropagationContext context = t.context();
        Number amount = random() % 10;
        for (int side : {0, 1}) {
            unsigned dice = random() % 8;
            if (dice > 1) change(context, move, side, amount);
            else change_below(t, move, side, amount, dice == 1);
        }
        end(t, move, random() % 10 > 0);
        return;
    } catch (const CORBA::TRANSIENT &raised) {
        refused++;
    } catch (const CORBA::Exception &raised) {
        failed++;
        usleep(20000);
    }
    if (!CORBA::is_nil(terminator)) outcome([&] { terminator->rollback(); });
}

static std::string set_all() {
    return outcome([&] {
        Transaction t(factory->create(60));
        PropagationContext context = t.context();
        for (int end : {0, 1})
            for (int cell = 0; cell < count; cell++) put(context, {end, cell}, value_of(amount_at_first, 0));
        t.terminator->commit(true);
    });
}

// How many cells are held, after so many seconds at most.
static int held_after(int seconds) {
    int held = 0;
    for (int turn = 0; turn <= 5 * seconds; turn++) {
        held = 0;
        for (int end : {0, 1})
            for (int cell = 0; cell < count; cell++) {
                std::string answer = "none";
                outcome([&] {
                    Transaction t(factory->create(60));
                    answer = outcome([&] { put(t.context(), {end, cell}, 0); });
                    t.terminator->rollback();
                });
                held += answer != "ok";
            }
        if (held == 0) break;
        usleep(200000);
    }
    return held;
}

// For each move how many of its cells it has changed. A value that no move has put there is counted.
static std::map<Number, int> find_back(Number &sum, int &unexplained) {
    std::map<Number, int> changes;
    for (int end : {0, 1})
        for (int cell = 0; cell < count; cell++) {
            Place place = {end, cell};
            Number value = stored(place);
            sum += amount_in(value);
            while (move_in(value) != 0) {
                auto found = moves.find(move_in(value));
                if (found == moves.end()) break;
                Move &move = found->second;
                int side = move.places[0] < place || place < move.places[0] ? 1 : 0;
                if (move.places[side] < place || place < move.places[side] || move.after[side] != value) break;
                changes[move.number]++;
                value = move.before[side];
            }
            unexplained += value != value_of(amount_at_first, 0);
        }
    return changes;
}

static bool tell(int held, int stuck) {
    Number sum = 0;
    int unexplained = 0, halves = 0, wrong = 0, told[3] = {0, 0, 0}, unknown_done = 0;
    std::map<Number, int> changes = find_back(sum, unexplained);
    for (auto &entry : moves) {
        int changed = changes.count(entry.first) ? changes[entry.first] : 0;
        Told answer = entry.second.told;
        told[answer]++;
        halves += changed == 1;
        wrong += (answer == Plain && changed == 0) || (answer == Rolled && changed != 0);
        unknown_done += answer == Unknown && changed != 0;
    }
    Number wanted = 2 * count * amount_at_first;
    std::cout << "moves " << moves.size() << " (ok " << told[Plain] << ", rolled back " << told[Rolled] << ", not answered "
              << told[Unknown] << ", of which " << unknown_done << " were made); given up: held cells " << refused
              << ", failures " << failed << "; sum " << sum << " of " << wanted << "; by half " << halves
              << ", told wrongly " << wrong << ", unexplained " << unexplained << "; cells held until a restart " << held
              << ", stuck " << stuck << std::endl;
    return sum == wanted && !halves && !wrong && !unexplained && !stuck;
}

int main(int argc, char **argv) {
    CORBA::ORB_var orb = CORBA::ORB_init(argc, argv);
    Within::install();
    if (argc < 7) return 2;
    CORBA::Object_var objects[3];
    for (int word = 0; word < 3; word++) objects[word] = orb->string_to_object(argv[word + 1]);
    factory = TransactionFactory::_unchecked_narrow(objects[0]);
    for (int end : {0, 1}) ends[end] = Cells::_unchecked_narrow(objects[end + 1]);
    std::string set = set_all();
    std::cout << "cells set: " << set << std::endl;
    if (set != "ok") return 1;
    std::atomic<bool> over{false};
    std::vector<std::thread> clients;
    for (int number = 0; number < atoi(argv[4]); number++)
        clients.emplace_back([&, number] {
            std::mt19937 random(number + 1);
            while (!over) one(random);
        });
    sleep(atoi(argv[5]));
    over = true;
    for (auto &client : clients) client.join();
    int held = held_after(10), stuck = 0;
    if (held > 0) {
        std::ofstream(argv[6]) << held;
        for (int turn = 0; turn < 300 && access(argv[6], F_OK) == 0; turn++) usleep(100000);
        stuck = held_after(20);
    }
    try {
        _exit(tell(held, stuck) ? 0 : 1);
    } catch (const CORBA::Exception &raised) {
        std::cerr << "shuffle: " << raised._rep_id() << std::endl;
        _exit(1);
    }
}
