#include "objects.h"

Notes notes;

const char *word_of(CosTransactions::Status status) {
    static const char *words[] = {"Active",        "MarkedRollback", "Prepared",  "Committed",  "RolledBack",
                                  "Unknown",       "NoTransaction",  "Preparing", "Committing", "RollingBack"};
    return words[status];
}

void Synchronization::after_completion(CosTransactions::Status status) {
    notes.note("after " + name + " " + word_of(status));
}

// The last part of a repository id, without its version.
static std::string name_in(const char *id) {
    std::string text(id);
    size_t from = text.rfind('/') + 1;
    return text.substr(from, text.rfind(':') - from);
}

std::string outcome(const std::function<void()> &call) {
    try {
        call();
        return "ok";
    } catch (const CORBA::SystemException &raised) {
        static const char *completions[] = {"YES", "NO", "MAYBE"};
        return name_in(raised._rep_id()) + " " + completions[raised.completed()];
    } catch (const CORBA::UserException &raised) {
        return name_in(raised._rep_id());
    }
}
