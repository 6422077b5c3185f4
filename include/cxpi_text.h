/* The refusal numbers of cxpi.h in words. For stations and test benches; firmware need not take it. */
#ifndef CXPI_TEXT_H
#define CXPI_TEXT_H

#include "cxpi.h"

#ifdef __cplusplus
extern "C" {
#endif

/* What a refusal number says; of a number that is none, that it is none. */
static inline const char *cxpi_refusal_text(uint32_t number) {
    switch (number) {
    case CXPI_DONE:
        return "done";
    case CXPI_WRONG_SIZE:
        return "the length is not 1,024 or 1,536 bytes";
    case CXPI_WRONG_CHECK:
        return "a block's check differs";
    case CXPI_WRONG_BLOCK:
        return "byte 0 or 1 of a block or the profile is wrong";
    case CXPI_WRONG_REVISION:
        return "the revision is 0, or blocks differ in it";
    case CXPI_WRONG_TIME:
        return "a time breaks its rule";
    case CXPI_WRONG_NODE:
        return "the number of nodes or a node entry breaks its rule";
    case CXPI_WRONG_ROW:
        return "a row count or a row breaks its rule";
    case CXPI_NO_ROW_OF_NODE:
        return "a node publishes nothing";
    case CXPI_FILLER:
        return "filler is not zero";
    case CXPI_BUFFER_SHORT:
        return "a buffer is too short";
    case CXPI_NO_STATE:
        return "the state record, the identity's length or the node number is out of range";
    case CXPI_NO_REQID:
        return "the ReqId is not in the plan, or its row is the master's in an answer or another's in an ask to send";
    case CXPI_DAMAGED:
        return "the answer's result is not 0";
    case CXPI_WRONG_LENGTH:
        return "the answer's length is not one that its row accepts";
    case CXPI_NO_EVENT:
        return "the event's count is above 3 or its ReqId above 127, or it is no event";
    case CXPI_NEEDS_NORMAL:
        return "the event needs Normal";
    case CXPI_NO_RESULT_DUE:
        return "no send result is awaited";
    case CXPI_UNDER_WAY:
        return "a sleep message is already under way";
    case CXPI_NOT_PERMITTED:
        return "the master's own permission is no";
    case CXPI_NOT_HELD:
        return "a node's permission is not held";
    case CXPI_NOT_ASKED:
        return "the polled node is not yet asked";
    case CXPI_REPLIES_SHORT:
        return "the list of replies is shorter than the list of events";
    case CXPI_WRONG_REQUEST:
        return "the request is empty, or its length is not its service's";
    case CXPI_NOT_SUPPORTED:
        return "the request's service or identifier is not supported";
    case CXPI_NEVER_SLEEPS:
        return "a panel of this profile never sleeps";
    default:
        return "no refusal number";
    }
}

#ifdef __cplusplus
}
#endif

#endif
