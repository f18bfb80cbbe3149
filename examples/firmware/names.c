#include "names.h"

#include "tewennos.h"

const char *name_of_status(unsigned status)
{
    switch (status) {
    case TMC_STATUS_SUCCESS:
        return "SUCCESS";
    case TMC_STATUS_PENDING:
        return "PENDING";
    case TMC_STATUS_INTERRUPT_IN_BUSY:
        return "INTERRUPT_IN_BUSY";
    case TMC_STATUS_FAILED:
        return "FAILED";
    case TMC_STATUS_TRANSFER_NOT_IN_PROGRESS:
        return "TRANSFER_NOT_IN_PROGRESS";
    case TMC_STATUS_SPLIT_NOT_IN_PROGRESS:
        return "SPLIT_NOT_IN_PROGRESS";
    case TMC_STATUS_SPLIT_IN_PROGRESS:
        return "SPLIT_IN_PROGRESS";
    default:
        return "?";
    }
}
