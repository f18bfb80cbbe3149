/* reader: reads for up to a minute, without a question. */
#include "device.h"

int main(void)
{
    int device = open_device();

    set_limit(device, 60000);
    read_some(device, STORE);
    return all_said();
}
