/* What the C tests test: the product's exports, or with -DCXPI_REFERENCE the independent implementation under the exports' names. */
#ifndef SUBJECT_H
#define SUBJECT_H

#include "cxpi.h"

#ifdef CXPI_REFERENCE
#include "configuration.h"
#include "reference_packed.h"
#define cxpi_version reference_cxpi_version
#define cxpi_read reference_cxpi_read
#define cxpi_write reference_cxpi_write
#define cxpi_master_power_on reference_cxpi_master_power_on
#define cxpi_node_power_on reference_cxpi_node_power_on
#define cxpi_master_step reference_cxpi_master_step
#define cxpi_node_step reference_cxpi_node_step
#define cxpi_master_batch reference_cxpi_master_batch
#define cxpi_master_why reference_cxpi_master_why
#define cxpi_node_configure reference_cxpi_node_configure
#endif

#endif
