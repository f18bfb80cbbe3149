/* command [--clear] THOUSANDTHS: a whole command with that setpoint, after a clear where it is asked for. */
#include "device.h"

#include <stdlib.h>
#include <string.h>

int main(int count, char **words)
{
    int device = open_device();

    if (count == 3 && strcmp(words[1], "--clear") == 0)
        call(device, "clear", USBTMC_IOCTL_CLEAR, NULL);
    first_setpoint((unsigned)atoi(words[count - 1]));
    try_whole_command(device);
    return all_said();
}
