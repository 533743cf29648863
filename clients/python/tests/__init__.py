"""Tests of the client: `make -C clients check`."""

import signal

# A shell that starts this run in the background makes it and its children ignore interrupts. Tests send interrupts.
if signal.getsignal(signal.SIGINT) is signal.SIG_IGN:
    signal.signal(signal.SIGINT, signal.default_int_handler)
