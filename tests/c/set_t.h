/* Set T (R1.14), and its plan record, by hand. */
#ifndef SET_T_H
#define SET_T_H

#include "cxpi.h"

static const uint8_t set_t[CXPI_SET_LENGTH_ONE] = {
    [0] = 0x50,    [1] = 1,      [3] = 7,   [4] = 1,                                 /* plan block, revision 7, N 1 */
    [7] = 10,      [9] = 2,      [11] = 3,  [13] = 4,  [15] = 5, [17] = 6, [19] = 1, /* W, D, S, E, R, P, C */
    [32] = 0x41,   [33] = 1,     [34] = 1,                                           /* node 0: class 1, polled */
    [510] = 0x0A,  [511] = 0xA9,                                                     /* check */
    [512] = 0x4D,  [513] = 1,    [515] = 7, [516] = 1,                               /* message block, one row */
    [520] = 16,    [521] = 0,    [522] = 2, [523] = 1,                               /* ReqId 16 */
    [1022] = 0x01, [1023] = 0x22};                                                   /* check */

static const uint8_t plan_t[CXPI_PLAN_LENGTH] = {
    [1] = 7,     [2] = 1,  [4] = 1,                                          /* revision, N, rows */
    [6] = 10,    [8] = 2,  [10] = 3, [12] = 4, [14] = 5, [16] = 6, [18] = 1, /* W, D, S, E, R, P, C */
    [19] = 0x41, [20] = 1, [21] = 1,                                         /* node 0 */
    [83] = 16,   [84] = 0, [85] = 2, [86] = 1};                              /* ReqId 16 */

#endif
