/* half: the first half of a command, without EOM. */
#include "device.h"

int main(void)
{
    int device = open_device();

    set_end(device, false);
    send_text(device, "SETP 27");
    return all_said();
}
