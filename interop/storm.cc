// Clients and resources over omniORB through kills of their service: `storm REFERENCE THREADS SECONDS`. Each transaction has
// two or three resources, which note what they are told. A prepared resource that hears nothing asks its recovery
// coordinator. In the end no two resources of a transaction may have ended differently, and what a client was answered must
// be what its resources did.
#include "CosTransactions.hh"

#include <atomic>
#include <iostream>
#include <memory>
#include <mutex>
#include <random>
#include <thread>
#include <unistd.h>
#include <vector>

using namespace CosTransactions;

static CORBA::ORB_var orb;

enum State { Working, Prepared, Committed, RolledBack, ReadOnly };

static std::atomic<int> contradictions{0}, prepares{0}, asks{0}, learnt{0}, resolved{0}, commits{0};

// What a resource knows of itself. It outlives its servant.
struct Memory {
    std::mutex lock;
    State state = Working;
    Vote vote;
    RecoveryCoordinator_var recovery;
    Resource_var self;

    void end(State as) {
        std::lock_guard<std::mutex> guard(lock);
        if ((state == Committed || state == RolledBack) && state != as) contradictions++;
        state = as;
    }
    State look() {
        std::lock_guard<std::mutex> guard(lock);
        return state;
    }
};

class Participant : public POA_CosTransactions::Resource, public PortableServer::RefCountServantBase {
public:
    explicit Participant(std::shared_ptr<Memory> memory) : memory(memory) {}

    Vote prepare() override {
        prepares++;
        std::lock_guard<std::mutex> guard(memory->lock);
        if (memory->state == Working) {
            memory->state = memory->vote == VoteCommit ? Prepared : memory->vote == VoteReadOnly ? ReadOnly : RolledBack;
        }
        return memory->vote;
    }
    void commit() override {
        if (memory->look() == Working) throw NotPrepared();
        commits++;
        memory->end(Committed);
    }
    void rollback() override {
        if (memory->look() != ReadOnly) memory->end(RolledBack);
    }
    void commit_one_phase() override { memory->end(Committed); }
    void forget() override {}

private:
    std::shared_ptr<Memory> memory;
};

enum Answer { Plain, Rolled, Unknown };

struct Done {
    std::vector<std::shared_ptr<Memory>> parts;
    Answer answer;
};

static std::mutex all_lock;
static std::vector<Done> all;

// Asks what was decided, as a resource does that is prepared and hears nothing.
static bool resolve(Memory &memory) {
    asks++;
    try {
        CORBA::String_var text = orb->object_to_string(memory.recovery);
        CORBA::Object_var object = orb->string_to_object(text);
        RecoveryCoordinator_var anew = RecoveryCoordinator::_unchecked_narrow(object);
        Status status = anew->replay_completion(memory.self);
        if (status == StatusCommitting || status == StatusCommitted) learnt++, memory.end(Committed);
        if (status == StatusRolledBack || status == StatusRollingBack) learnt++, memory.end(RolledBack);
    } catch (const CORBA::OBJECT_NOT_EXIST &) {
        // Without a record the outcome is rollback. Where a word has come meanwhile, that counts.
        if (memory.look() == Prepared) resolved++, memory.end(RolledBack);
    } catch (const CORBA::Exception &) {
    }
    return memory.look() != Prepared;
}

static std::shared_ptr<Memory> add(Coordinator_ptr coordinator, Vote vote) {
    auto memory = std::make_shared<Memory>();
    memory->vote = vote;
    Participant *servant = new Participant(memory);
    memory->self = servant->_this();
    servant->_remove_ref();
    memory->recovery = coordinator->register_resource(memory->self);
    return memory;
}

static void one(TransactionFactory_ptr factory, std::mt19937 &random) {
    Done done;
    done.answer = Unknown;
    try {
        Control_var control = factory->create(30);
        Coordinator_var coordinator = control->get_coordinator();
        Terminator_var terminator = control->get_terminator();
        int count = 2 + random() % 2;
        for (int part = 0; part < count; part++) {
            unsigned dice = random() % 20;
            done.parts.push_back(add(coordinator, dice == 0 ? VoteRollback : dice == 1 ? VoteReadOnly : VoteCommit));
        }
        try {
            if (random() % 10 == 0) {
                terminator->rollback();
                done.answer = Rolled;
            } else {
                terminator->commit(true);
                done.answer = Plain;
            }
        } catch (const CORBA::TRANSACTION_ROLLEDBACK &) {
            done.answer = Rolled;
        } catch (const HeuristicHazard &) {
        }
    } catch (const CORBA::Exception &) {
        usleep(20000);
    }
    std::lock_guard<std::mutex> guard(all_lock);
    all.push_back(done);
}

static void drain(bool to_the_end) {
    for (size_t index = 0; index < all.size(); index++) {
        std::vector<std::shared_ptr<Memory>> parts;
        {
            std::lock_guard<std::mutex> guard(all_lock);
            parts = all[index].parts;
        }
        for (auto &part : parts)
            for (int turn = 0; part->look() == Prepared && (turn == 0 || (to_the_end && turn < 300)); turn++)
                if (!resolve(*part) && to_the_end) usleep(100000);
    }
}

int main(int argc, char **argv) {
    orb = CORBA::ORB_init(argc, argv);
    CORBA::Object_var root = orb->resolve_initial_references("RootPOA");
    PortableServer::POA_var poa = PortableServer::POA::_narrow(root);
    PortableServer::POAManager_var manager = poa->the_POAManager();
    manager->activate();
    CORBA::Object_var object = orb->string_to_object(argv[1]);
    TransactionFactory_var factory = TransactionFactory::_unchecked_narrow(object);
    std::atomic<bool> over{false};
    std::vector<std::thread> threads;
    for (int number = 0; number < atoi(argv[2]); number++)
        threads.emplace_back([&, number] {
            std::mt19937 random(number + 1);
            while (!over) one(factory, random);
        });
    std::thread asker([&] {
        while (!over) {
            sleep(2);
            drain(false);
        }
    });
    sleep(atoi(argv[3]));
    over = true;
    for (auto &thread : threads) thread.join();
    asker.join();
    drain(true);
    int both = 0, wrong = 0, plain = 0, rolled = 0, unknown = 0, stuck = 0;
    for (auto &done : all) {
        int committed = 0, undone = 0;
        for (auto &part : done.parts) {
            State state = part->look();
            committed += state == Committed;
            undone += state == RolledBack || state == Working;
            stuck += state == Prepared;
        }
        both += committed && undone;
        wrong += (done.answer == Plain && undone) || (done.answer == Rolled && committed);
        plain += done.answer == Plain;
        rolled += done.answer == Rolled;
        unknown += done.answer == Unknown;
    }
    std::cout << "transactions " << all.size() << " (ok " << plain << ", rolled back " << rolled << ", not answered "
              << unknown << "); words: prepare " << prepares << ", commit " << commits << "; asks " << asks << " (told "
              << learnt << ", no object " << resolved << "); disagree " << both << ", answered wrongly " << wrong
              << ", contradicted " << contradictions << ", stuck " << stuck << std::endl;
    _exit(both || wrong || contradictions || stuck ? 1 : 0);
}
