// The objects of a client: resources and synchronizations that note what they are told, and do as they were bidden.
#ifndef OBJECTS_H
#define OBJECTS_H

#include "CosTransactions.hh"

#include <functional>
#include <mutex>
#include <string>

// What was told, in order, as words with commas between them. A word that comes again at once is noted once.
class Notes {
public:
    void note(const std::string &word) {
        std::lock_guard<std::mutex> guard(lock);
        if (word != last) text += text.empty() ? word : ", " + word;
        last = word;
    }
    std::string take() {
        std::lock_guard<std::mutex> guard(lock);
        std::string all;
        all.swap(text);
        last.clear();
        return all;
    }
    std::string look() {
        std::lock_guard<std::mutex> guard(lock);
        return text;
    }

private:
    std::mutex lock;
    std::string text, last;
};

extern Notes notes;

// What a case has shown.
struct Shown {
    std::string text;
    Shown &operator<<(const std::string &more) {
        text += (text.empty() ? "" : "; ") + more;
        return *this;
    }
    Shown &told() {
        std::string words = notes.take();
        return *this << (words.empty() ? "nothing told" : words);
    }
};

inline std::string flag(CORBA::Boolean yes) { return yes ? "true" : "false"; }

// What a resource does when it is told a word, beside noting it. It may raise an exception.
struct Bidding {
    CosTransactions::Vote vote = CosTransactions::VoteCommit;
    std::function<void()> at_prepare = [] {};
    std::function<void()> at_commit = [] {};
    std::function<void()> at_rollback = [] {};
    std::function<void()> at_one_phase = [] {};
    std::function<void()> at_subcommit = [] {};
};

// What resources of both kinds do.
template <class Skeleton> class Resource : public Skeleton, public PortableServer::RefCountServantBase {
public:
    Resource(const std::string &name, const Bidding &bidding) : name(name), bidding(bidding) {}

    CosTransactions::Vote prepare() override {
        notes.note("prepare " + name);
        bidding.at_prepare();
        return bidding.vote;
    }
    void rollback() override {
        notes.note("rollback " + name);
        bidding.at_rollback();
    }
    void commit() override {
        notes.note("commit " + name);
        bidding.at_commit();
    }
    void commit_one_phase() override {
        notes.note("commit_one_phase " + name);
        bidding.at_one_phase();
    }
    void forget() override { notes.note("forget " + name); }

protected:
    std::string name;
    Bidding bidding;
};

typedef Resource<POA_CosTransactions::Resource> PlainResource;

// A resource that learns of the end of its subtransaction.
class AwareResource : public Resource<POA_CosTransactions::SubtransactionAwareResource> {
public:
    using Resource::Resource;

    void commit_subtransaction(CosTransactions::Coordinator_ptr parent) override {
        notes.note("commit_subtransaction " + name + (parent->is_top_level_transaction() ? " into top" : " into sub"));
        bidding.at_subcommit();
    }
    void rollback_subtransaction() override { notes.note("rollback_subtransaction " + name); }
};

// A synchronization, which may balk at the completion.
class Synchronization : public POA_CosTransactions::Synchronization, public PortableServer::RefCountServantBase {
public:
    Synchronization(const std::string &name, bool balks) : name(name), balks(balks) {}

    void before_completion() override {
        notes.note("before " + name);
        if (balks) throw CORBA::INTERNAL();
    }
    void after_completion(CosTransactions::Status status) override;

private:
    std::string name;
    bool balks;
};

// The word of a status.
const char *word_of(CosTransactions::Status status);

// What a call does, as a word: ok, or the name of what it raises.
std::string outcome(const std::function<void()> &call);

// The reference of a servant, which is activated and then belongs to the ORB.
template <class Interface, class Servant> typename Interface::_ptr_type activated(Servant *servant) {
    typename Interface::_var_type reference = servant->_this();
    servant->_remove_ref();
    return reference._retn();
}

#endif
