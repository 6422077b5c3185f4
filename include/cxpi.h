/* CXPI network management for C firmware: release sets, the master machine, the node machine and the node configuration.
 *
 * A release set is read into a plan record. A unit keeps the packed state of the master, or of its node, and steps it by each event: a
 * tick of 1 ms, a message, a wish of its application. A step leaves the next state, and a reply that says what the unit is to do. A
 * node keeps its identity and its address beside its state, and takes requests of the node configuration by a call of their own.
 * Numbers of more than one byte are big-endian, and a flag is 0 or 1. Names in _AT are offsets, names in _LENGTH lengths in bytes.
 *
 * Calls. A call takes any bytes of any length, ends, and returns one refusal number and nothing else: CXPI_DONE where it did what it
 * was asked. (cxpi_version returns the version.) A buffer passes as a pointer, which is not null, and its length; the buffers of one
 * call do not overlap. Nothing is kept between calls, so calls may be made from several tasks at once on buffers of their own.
 *
 * Order. A call returns the first of its numbers that applies:
 *
 *   cxpi_read             1 to 9 of the set, each over all blocks; 10 for the plan buffer
 *   cxpi_write            3 to 8 of the plan record; 10 for the set buffer
 *   cxpi_*_power_on       3 to 8 of the plan record; 10 for the state buffer
 *   cxpi_*_step           3 to 8 of the plan record; 10 for the reply buffer; 11; 15; 16; 25; the rest by number: 12, 13, 14, 17 to 21
 *   cxpi_master_batch     22; the numbers of a step stand in the reply records, in a step's order
 *   cxpi_master_why       3 to 8 of the plan record; 10 for the reply buffer; 11; 16
 *   cxpi_node_configure   11 for another length of the identity; 23; 24; 10 for the response buffer
 *
 * A plan record of another length than CXPI_PLAN_LENGTH is taken for the all-zero record, which is 4. A state of another length is 11,
 * an event of another length 15. A buffer that is to be written may be longer than what is written.
 *
 * What a refusal leaves. Nothing of before can be taken for a result:
 *
 *   cxpi_read             after 1 to 9 the all-zero record, which the other calls refuse; after 10 the plan buffer as it was
 *   cxpi_write            length 0, and the set buffer as it was
 *   cxpi_*_power_on       the state buffer as it was
 *   cxpi_*_step           in the reply zeros, which are no command and none lost, but for the node that 20 names; the state as it was,
 *                         but that 13 and 14 change the master's
 *   cxpi_master_batch     after 22 every byte as it was; an event that is refused leaves what its step leaves, and those after it run
 *   cxpi_master_why       in the reply zeros, after 10 the reply buffer as it was
 *   cxpi_node_configure   length 0, address and response buffer as they were
 *
 * A buffer that is too short is never written, and bytes past what is written stay in every call.
 *
 * Memory. The caller lends every byte: there is no heap and no data. memcpy and memset of the C library are needed.
 * Stack: a call takes at most 1,600 bytes on a controller, memcpy and memset aside; origin.txt beside an archive has each call's. */
#ifndef CXPI_H
#define CXPI_H

#include <stddef.h>
#include <stdint.h>

#ifdef __cplusplus
extern "C" {
#endif

/* The version of calls and layouts, which each change of either raises. A host compares the archive's with its header's at start. */
#define CXPI_VERSION 6

uint32_t cxpi_version(void);

/* Refusal numbers. cxpi_text.h has them in words. */
#define CXPI_DONE 0
#define CXPI_WRONG_SIZE 1     /* the set's length is not 1,024 or 1,536 */
#define CXPI_WRONG_CHECK 2    /* a block's check differs */
#define CXPI_WRONG_BLOCK 3    /* wrong byte 0 or 1 of a block, or a wrong profile */
#define CXPI_WRONG_REVISION 4 /* revision 0, or blocks differ in it */
#define CXPI_WRONG_TIME 5     /* a time breaks its rule */
#define CXPI_WRONG_NODE 6     /* N or a node entry breaks its rule */
#define CXPI_WRONG_ROW 7      /* row count or a row breaks its rule */
#define CXPI_NO_ROW_OF_NODE 8 /* a node publishes nothing */
#define CXPI_FILLER 9         /* filler not zero */
#define CXPI_BUFFER_SHORT 10  /* buffer too short for what is to be written */
#define CXPI_NO_STATE 11      /* bytes that are no state or no identity, a state out of range, or a node number not below N */
#define CXPI_NO_REQID 12      /* ReqId not in the plan; a master's row in an answer; another's row in an ask to send */
#define CXPI_DAMAGED 13       /* answer's result is not 0; the master lets its publisher's permission go and calls back */
#define CXPI_WRONG_LENGTH 14  /* answer's length is not a fixed row's, or is above a variable row's; the same */
#define CXPI_NO_EVENT 15      /* bytes that are no event, a count above 3 or a ReqId above 127 */
#define CXPI_NEEDS_NORMAL 16  /* event needs Normal, and so does cxpi_master_why */
#define CXPI_NO_RESULT_DUE 17 /* no send result awaited */
#define CXPI_UNDER_WAY 18     /* sleep message already under way */
#define CXPI_NOT_PERMITTED 19 /* master's own permission is no */
#define CXPI_NOT_HELD 20      /* a node's permission is not held; CXPI_MASTER_REPLY_NODE_AT has the lowest such node */
#define CXPI_NOT_ASKED 21     /* polled node not yet asked */
#define CXPI_REPLIES_SHORT 22 /* fewer reply records than event records */
#define CXPI_WRONG_REQUEST 23 /* request empty, of 2E hex and not 8 bytes long, or of 22 hex and not 3 */
#define CXPI_NOT_SUPPORTED 24 /* request of any other service or identifier */
#define CXPI_NEVER_SLEEPS 25  /* sleep ask or sleep message, and the plan's profile is that of panels that never sleep */

/* Most of what there can be. */
#define CXPI_MOST_NODES 16
#define CXPI_MOST_ROWS 127
#define CXPI_REQIDS 128 /* 0 to 127; rows have those from 1 on */

/* A release set: up to 100 rows, or more. */
#define CXPI_SET_LENGTH_ONE 1024
#define CXPI_SET_LENGTH_TWO 1536

/* A plan record. Entries from N on and rows past the count are unused: cxpi_read leaves zeros there, and every call ignores them. */
#define CXPI_PLAN_LENGTH 592
#define CXPI_PLAN_REVISION_AT 0     /* two bytes: 1 to 65,535 */
#define CXPI_PLAN_NODE_COUNT_AT 2   /* N, the number of nodes: 1 to CXPI_MOST_NODES */
#define CXPI_PLAN_ROW_COUNT_AT 3    /* two bytes: 1 to CXPI_MOST_ROWS */
/* Seven times of two bytes, in ticks, each 1 to 30,000, and S at least D: */
#define CXPI_PLAN_WINDOW_AT 5       /* W, how long the master holds a node's permission */
#define CXPI_PLAN_CLOCK_STOP_AT 7   /* D, from the sleep message to the clock's stop */
#define CXPI_PLAN_NODE_SLEEP_AT 9   /* S, from the sleep message to a node's sleep */
#define CXPI_PLAN_QUIET_LIMIT_AT 11 /* E, without clock until a node shows its network error */
#define CXPI_PLAN_RECOVERY_AT 13    /* R, wake-up recovery: a caller's second pulse comes after R, its network error after 2R */
#define CXPI_PLAN_SPACE_AT 15       /* P, wake-up space: without clock until a node in Standby that did not call sleeps */
#define CXPI_PLAN_CLOCK_START_AT 17 /* C, from a wake-up to the clock's start */
#define CXPI_PLAN_ENTRIES_AT 19     /* CXPI_MOST_NODES node entries, by node number */
#define CXPI_PLAN_ROWS_AT 83        /* CXPI_MOST_ROWS rows, ReqIds rising */
#define CXPI_PLAN_PROFILE_AT 591    /* 1 for panels whose power the ignition cuts, which never sleep, else 0 */

/* A node entry. */
#define CXPI_ENTRY_LENGTH 4
#define CXPI_ENTRY_ADDRESS_AT 0 /* 1 to 125, all different */
#define CXPI_ENTRY_CLASS_AT 1   /* diagnostic class: 1 to 3 */
#define CXPI_ENTRY_METHOD_AT 2  /* CXPI_EVENT_TRIGGERED or CXPI_POLLED */
#define CXPI_ENTRY_ZERO_AT 3    /* 0 */
#define CXPI_EVENT_TRIGGERED 0
#define CXPI_POLLED 1

/* A row. Each node publishes one at least. */
#define CXPI_ROW_LENGTH 4
#define CXPI_ROW_REQID_AT 0       /* 1 to 127 */
#define CXPI_ROW_PUBLISHER_AT 1   /* a node number below N, or CXPI_MASTER_PUBLISHES */
#define CXPI_ROW_DATA_LENGTH_AT 2 /* 0 to 255 */
#define CXPI_ROW_KIND_AT 3        /* CXPI_FIXED, CXPI_FIXED_COUNTED, CXPI_VARIABLE or CXPI_VARIABLE_COUNTED */
#define CXPI_MASTER_PUBLISHES 255

/* The kinds of a row. An answer of a fixed row has the row's length; one of a variable row any length up to it, 0 too. */
#define CXPI_FIXED 0
#define CXPI_FIXED_COUNTED 1    /* fixed, with a sequence count */
#define CXPI_VARIABLE 2
#define CXPI_VARIABLE_COUNTED 3 /* variable, with a sequence count */

/* Reads a set into a plan record. */
uint32_t cxpi_read(const uint8_t *set, size_t set_length, uint8_t *plan, size_t plan_length);

/* Writes the set of a plan record; length is the set's, CXPI_SET_LENGTH_ONE or CXPI_SET_LENGTH_TWO. */
uint32_t cxpi_write(const uint8_t *plan, size_t plan_length, uint8_t *set, size_t set_length, uint16_t *length);

/* The states of a master and of a node. Under the profile of panels that never sleep each other than CXPI_NORMAL is out of range. */
#define CXPI_NORMAL 0
#define CXPI_STANDBY 1
#define CXPI_SLEEP 2

/* The phases of a master in Normal. What speaks against sleep calls back: Sending becomes Withdrawn, and Closing becomes Open. Under the
 * profile of panels that never sleep each other than CXPI_OPEN is out of range. */
#define CXPI_OPEN 0
#define CXPI_SENDING 1   /* the sleep message is under way */
#define CXPI_WITHDRAWN 2 /* it was called back, its result is awaited */
#define CXPI_CLOSING 3   /* it was sent, the clock is about to stop */

/* A master's state. A state is in range where each field is within its limit, by the plan's N, times and profile. */
#define CXPI_MASTER_LENGTH 201
#define CXPI_MASTER_STATE_AT 0      /* CXPI_NORMAL, CXPI_STANDBY or CXPI_SLEEP; the clock is on exactly in Normal */
#define CXPI_MASTER_PHASE_AT 1      /* CXPI_OPEN, CXPI_SENDING, CXPI_WITHDRAWN or CXPI_CLOSING; CXPI_OPEN outside Normal */
#define CXPI_MASTER_PERMISSION_AT 2 /* its own permission to sleep: 0 or 1 */
#define CXPI_MASTER_DELAY_AT 3      /* two bytes: ticks in Standby, below C, or in Closing, below D; else 0 */
#define CXPI_MASTER_TICKS_AT 5      /* four bytes: tick number, any; it returns to 0 after 4,294,967,295 */
#define CXPI_MASTER_HOLDS_AT 9      /* CXPI_MOST_NODES permissions, by node number */
#define CXPI_MASTER_COUNTS_AT 57    /* CXPI_REQIDS bytes: last sequence count of each ReqId, 0 to 3, or CXPI_NO_COUNT */
#define CXPI_MASTER_CAUSES_AT 185   /* CXPI_MOST_NODES bytes: the cause of each node, 0 to 4 */
#define CXPI_NO_COUNT 4

/* Why a node's permission is not held: the last of these in Normal. 0 also for a held node, outside Normal and from N on. */
#define CXPI_CAUSE_NEW 0     /* no answer since Normal */
#define CXPI_CAUSE_REFUSED 1 /* an answer without permission */
#define CXPI_CAUSE_AGED 2    /* no answer within W */
#define CXPI_CAUSE_DAMAGED 3 /* an answer damaged or of a length that its row does not accept */
#define CXPI_CAUSE_WAKE 4    /* a wake-up let it go, or its answer carried one */

/* A node's permission as the master has it. */
#define CXPI_HOLD_LENGTH 3
#define CXPI_HOLD_HELD_AT 0 /* 1 if it is held, else 0; 0 from N on */
#define CXPI_HOLD_AGE_AT 1  /* two bytes: ticks since the answer that gave it, 0 to W; 0 where it is not held */

/* The master at power-on under a plan: Sleep, its own permission no, nothing held, no counts, all else 0. Where the plan's profile is that
 * of panels that never sleep, Normal in the place of Sleep: no command follows, its unit switches the clock on at once. */
uint32_t cxpi_master_power_on(const uint8_t *plan, size_t plan_length, uint8_t *state, size_t state_length);

/* The events of a master: byte 0 is the kind, then what the event has. */
#define CXPI_MASTER_TICK 0        /* 1 byte: a millisecond is over; none may be left out */
#define CXPI_MASTER_ANSWER 1      /* 9 bytes: an answer came, whole or damaged (needs Normal) */
#define CXPI_MASTER_PULSE 2       /* 1 byte: a wake-up pulse was heard */
#define CXPI_MASTER_WAKE 3        /* 1 byte: its application asks to wake */
#define CXPI_MASTER_PERMISSION 4  /* 2 bytes: its application permits sleep, 1 yes, 0 no */
#define CXPI_MASTER_SLEEP 5       /* 1 byte: its application asks for the sleep message (needs Normal) */
#define CXPI_MASTER_SEND_RESULT 6 /* 2 bytes: the result of the sleep message, 1 sent, 0 failed (needs Normal) */

/* The lengths of events, a master's or a node's, and where the value of an event of two bytes is. */
#define CXPI_PLAIN_EVENT_LENGTH 1
#define CXPI_VALUE_EVENT_LENGTH 2
#define CXPI_ANSWER_EVENT_LENGTH 9
#define CXPI_EVENT_VALUE_AT 1

/* The event of an answer. */
#define CXPI_ANSWER_REQID_AT 1       /* 0 to 127 */
#define CXPI_ANSWER_RESULT_AT 2      /* two bytes: 0 if the answer came whole, any other number if not */
#define CXPI_ANSWER_DATA_LENGTH_AT 4 /* two bytes: as received, judged by the row's kind */
#define CXPI_ANSWER_COUNT_AT 6       /* sequence count, 0 to 3; ignored where the row carries none */
#define CXPI_ANSWER_PERMISSION_AT 7  /* permission bit, 0 or 1 */
#define CXPI_ANSWER_WAKE_AT 8        /* wake bit, 0 or 1 */

/* The reply of a master's step. */
#define CXPI_MASTER_REPLY_LENGTH 3
#define CXPI_MASTER_REPLY_COMMAND_AT 0 /* CXPI_MASTER_NOTHING, CXPI_CLOCK_ON, CXPI_CLOCK_OFF or CXPI_SEND_SLEEP_MESSAGE */
#define CXPI_MASTER_REPLY_LOST_AT 1    /* answers lost before this one, 0 to 3 */
#define CXPI_MASTER_REPLY_NODE_AT 2    /* the node that CXPI_NOT_HELD names, 0 with every other number */

/* What a master commands. */
#define CXPI_MASTER_NOTHING 0
#define CXPI_CLOCK_ON 1
#define CXPI_CLOCK_OFF 2
#define CXPI_SEND_SLEEP_MESSAGE 3 /* its result follows as CXPI_MASTER_SEND_RESULT, also after a call-back */

/* A step of the master under a plan. */
uint32_t cxpi_master_step(const uint8_t *plan, size_t plan_length, uint8_t *state, size_t state_length, const uint8_t *event,
                          size_t event_length, uint8_t *reply, size_t reply_length);

/* An event of the master as a record of the machine's own numbers: a kind, then what the event has. What a kind does not use is ignored. */
struct cxpi_master_event {
    uint8_t kind;       /* CXPI_MASTER_TICK to CXPI_MASTER_SEND_RESULT; another is no event (15) */
    uint8_t reqid;      /* an answer's, as in its event of bytes, up to wake */
    uint16_t result;
    uint16_t length;
    uint8_t count;
    uint8_t permission; /* 0 or 1; above that no event */
    uint8_t wake;       /* 0 or 1; above that no event */
    uint8_t flag;       /* of CXPI_MASTER_PERMISSION 1 yes, 0 no; of CXPI_MASTER_SEND_RESULT 1 sent, 0 failed; above that no event */
};

/* What a step gives back, as a record. */
struct cxpi_master_reply {
    uint8_t refusal;
    uint8_t node;    /* the node that CXPI_NOT_HELD names, 0 with every other number */
    uint8_t command; /* CXPI_MASTER_NOTHING to CXPI_SEND_SLEEP_MESSAGE */
    uint8_t lost;    /* answers lost before this one, 0 to 3 */
};

/* The events of a frame slot in one call: as a step for each in their order, a refused one included. The lists pass as arrays and the
 * number of their records. Returns 22 or 0; after 0 every event has its reply, the plan's numbers and 11 in each where plan or state are
 * refused. Reply records past the last event stay; with no events nothing is judged. */
uint32_t cxpi_master_batch(const uint8_t *plan, size_t plan_length, uint8_t *state, size_t state_length,
                           const struct cxpi_master_event *events, size_t event_count, struct cxpi_master_reply *replies,
                           size_t reply_count);

/* The reply of cxpi_master_why. */
#define CXPI_REASON_LENGTH 3
#define CXPI_REASON_AT 0       /* CXPI_REASON_NONE to CXPI_REASON_PROFILE */
#define CXPI_REASON_NODE_AT 1  /* with CXPI_REASON_NODE the lowest node whose permission is not held, else 0 */
#define CXPI_REASON_CAUSE_AT 2 /* with CXPI_REASON_NODE its cause, CXPI_CAUSE_NEW to CXPI_CAUSE_WAKE, else 0 */

/* Why the bus is still awake: CXPI_REASON_PROFILE where it holds, else the first of these that does, from CXPI_REASON_SLEEP on. */
#define CXPI_REASON_NONE 0    /* nothing stands in the way: the next sleep ask is accepted */
#define CXPI_REASON_SLEEP 1   /* sleep is under way: Sending or Closing */
#define CXPI_REASON_OWED 2    /* the result of a called-back sleep message is owed: Withdrawn */
#define CXPI_REASON_OWN 3     /* the master's own permission is missing */
#define CXPI_REASON_NODE 4    /* a node's permission is not held */
#define CXPI_REASON_PROFILE 5 /* the plan's profile is that of panels that never sleep */

/* Why a master in Normal, by its stored state, is not asleep. The state is only read. */
uint32_t cxpi_master_why(const uint8_t *plan, size_t plan_length, const uint8_t *state, size_t state_length, uint8_t *reply,
                         size_t reply_length);

/* A node's state. A state is in range where each field is within its limit, by the plan's times and profile. */
#define CXPI_NODE_LENGTH 143
#define CXPI_NODE_STATE_AT 0       /* CXPI_NORMAL, CXPI_STANDBY or CXPI_SLEEP */
#define CXPI_NODE_PERMISSION_AT 1  /* its permission to sleep: 0 or 1 */
#define CXPI_NODE_ERROR_AT 2       /* network error: 0 or 1 */
#define CXPI_NODE_WAKE_AT 3        /* wake bit, which its next answer carries: 0 or 1 */
#define CXPI_NODE_HEARD_AT 4       /* a request was heard: 0 or 1 */
#define CXPI_NODE_CALLER_AT 5      /* in Standby, whether it called: 0 or 1; else 0 */
#define CXPI_NODE_QUIET_AT 6       /* two bytes: quiet count, 0 to E */
#define CXPI_NODE_DELAY_AT 8       /* 1 while a sleep delay runs, else 0; none runs under the profile of panels that never sleep */
#define CXPI_NODE_DELAY_TICKS_AT 9 /* two bytes: its ticks, below S; 0 where none runs */
#define CXPI_NODE_STANDBY_AT 11    /* four bytes: standby count, 0 to 2R for a caller, below P for another; 0 outside Standby */
#define CXPI_NODE_COUNTS_AT 15     /* CXPI_REQIDS bytes: next sequence count of each ReqId, 0 to 3 */

/* A node at power-on under a plan: Sleep, its permission no, all else 0. Where the plan's profile is that of panels that never sleep,
 * Normal in the place of Sleep. */
uint32_t cxpi_node_power_on(const uint8_t *plan, size_t plan_length, uint8_t *state, size_t state_length);

/* The events of a node: byte 0 is the kind, then what the event has. */
#define CXPI_NODE_TICK 0          /* 2 bytes: a millisecond is over, 1 with clock, 0 without */
#define CXPI_NODE_PULSE 1         /* 1 byte: a wake-up pulse was heard */
#define CXPI_NODE_WAKE 2          /* 1 byte: its application asks to wake */
#define CXPI_NODE_PERMISSION 3    /* 2 bytes: its application permits sleep, 1 yes, 0 no */
#define CXPI_NODE_SLEEP_MESSAGE 4 /* 1 byte: the sleep message came (needs Normal) */
#define CXPI_NODE_REQUEST 5       /* 2 bytes: a request came, ReqId 0 to 127 (needs Normal) */
#define CXPI_NODE_SEND 6          /* 2 bytes: its application asks to send, ReqId 0 to 127 (needs Normal) */

/* The reply of a node's step. */
#define CXPI_NODE_REPLY_LENGTH 4
#define CXPI_NODE_REPLY_COMMAND_AT 0    /* CXPI_NODE_NOTHING, CXPI_SEND_PULSE or CXPI_SEND_ANSWER */
#define CXPI_NODE_REPLY_PERMISSION_AT 1 /* with CXPI_SEND_ANSWER its permission bit, else 0 */
#define CXPI_NODE_REPLY_WAKE_AT 2       /* likewise its wake bit */
#define CXPI_NODE_REPLY_COUNT_AT 3      /* likewise its sequence count, 0 to 3 */

/* What a node commands. */
#define CXPI_NODE_NOTHING 0
#define CXPI_SEND_PULSE 1  /* a wake-up pulse */
#define CXPI_SEND_ANSWER 2 /* to the ReqId of the event */

/* A step of the node of that number, 0 to N - 1, under a plan. */
uint32_t cxpi_node_step(const uint8_t *plan, size_t plan_length, uint8_t node, uint8_t *state, size_t state_length,
                        const uint8_t *event, size_t event_length, uint8_t *reply, size_t reply_length);

/* A node's identity. Its address is a byte of its own, any value; no step reads either. */
#define CXPI_IDENTITY_LENGTH 9
#define CXPI_IDENTITY_SUPPLIER_AT 0      /* two bytes */
#define CXPI_IDENTITY_FUNCTION_AT 2      /* two bytes */
#define CXPI_IDENTITY_VARIANT_AT 4
#define CXPI_IDENTITY_SERIAL_NUMBER_AT 5 /* four bytes */

/* The services of the node configuration. */
#define CXPI_READ_DATA_BY_IDENTIFIER 0x22
#define CXPI_WRITE_DATA_BY_IDENTIFIER 0x2E

/* The identifiers of ISO 14229-8, Table A.1. A node takes the first three. */
#define CXPI_ASSIGN_NODE_ADDRESS 0xFF07               /* written */
#define CXPI_NODE_PRODUCT_IDENTIFICATION 0xFF05       /* read */
#define CXPI_NODE_SERIAL_NUMBER_IDENTIFICATION 0xF18C /* read */
#define CXPI_ASSIGN_FRAME_IDENTIFIER_RANGE 0xFF02
#define CXPI_SAVE_CONFIGURATION 0xFF03
#define CXPI_NODE_CONFIGURATION_FILE_AVAILABILITY 0xFF04
#define CXPI_DATA_DUMP 0xFF06

/* The longest response of the node configuration. */
#define CXPI_CONFIGURATION_LENGTH 8

/* Gives a node a request of the node configuration (ISO 14229-8, 8.8.3, 8.8.5 and 8.8.6). The requests and their responses, in hex:
 *
 *   2E FF 07, supplier, function, new address   6E FF 07
 *   22 FF 05                                    62 FF 05, supplier, function, variant
 *   22 F1 8C                                    62 F1 8C, serial number
 *
 * The first changes the address. Where it is for another supplier or function, or of an address outside 1 to 125, it meets silence:
 * CXPI_DONE, and all is left as a refusal leaves it. length is the response's, 0 for silence. */
uint32_t cxpi_node_configure(const uint8_t *identity, size_t identity_length, uint8_t *address, const uint8_t *request,
                             size_t request_length, uint8_t *response, size_t response_length, uint8_t *length);

#ifdef __cplusplus
}
#endif

#endif
