# shellcheck shell=sh
# What ends the driver's own read of Interrupt-IN: it does not begin another, and hears of no service request until it is given the device anew.
# shellcheck source=tests/hosts/jobs/words.sh
. /jobs/words.sh
# shellcheck source=tests/hosts/jobs/bench.sh
. /jobs/bench.sh

anew() {
    unbind_driver
    bind_driver && say "the driver is given the device anew"
    /jobs/events "$1"
}

title "A halt of Interrupt-IN, set and ended, while the driver reads there"
/jobs/events --halt 40000
anew 41000
title "A USB reset, while the driver reads there"
/jobs/events --reset 42000
anew 43000
