#include "within.h"

#include <omniORB4/cdrStream.h>
#include <omniORB4/omniInterceptors.h>

static thread_local const Within *innermost = nullptr;

Within::Within(const CosTransactions::PropagationContext &context) : outer(innermost) {
    cdrEncapsulationStream stream;
    context >>= stream;
    stream.setOctetSeq(own);
    innermost = this;
}

Within::Within(const CORBA::OctetSeq &octets) : own(octets), outer(innermost) { innermost = this; }

Within::~Within() { innermost = outer; }

static CORBA::Boolean add_context(omni::omniInterceptors::clientSendRequest_T::info_T &info) {
    if (innermost) {
        IOP::ServiceContextList &contexts = info.service_contexts;
        CORBA::ULong count = contexts.length();
        contexts.length(count + 1);
        contexts[count].context_id = IOP::TransactionService;
        contexts[count].context_data = innermost->octets();
    }
    return true;
}

void Within::install() { omniORB::getInterceptors()->clientSendRequest.add(add_context); }
