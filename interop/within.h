// Transactions that a client begins, and what puts its calls into one.
#ifndef WITHIN_H
#define WITHIN_H

#include "CosTransactions.hh"

// A transaction: its control, and what that gives.
struct Transaction {
    CosTransactions::Control_var control;
    CosTransactions::Coordinator_var coordinator;
    CosTransactions::Terminator_var terminator;

    explicit Transaction(CosTransactions::Control_ptr it)
        : control(it), coordinator(it->get_coordinator()), terminator(it->get_terminator()) {}

    Transaction sub() const { return Transaction(coordinator->create_subtransaction()); }
    // Its context, asked for anew at each call.
    CosTransactions::PropagationContext context() const {
        CosTransactions::PropagationContext_var it = coordinator->get_txcontext();
        return it;
    }
};

// As long as one is there, each request of its thread has these octets, or the encapsulation of this context, as its service
// context 0 (TransactionService). The innermost counts.
class Within {
public:
    explicit Within(const CosTransactions::PropagationContext &context);
    explicit Within(const CORBA::OctetSeq &octets);
    ~Within();
    Within(const Within &) = delete;

    // Has the ORB ask for them: once, behind ORB_init.
    static void install();
    const CORBA::OctetSeq &octets() const { return own; }

private:
    CORBA::OctetSeq own;
    const Within *outer;
};

#endif
