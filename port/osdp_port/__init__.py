"""The parts of `osdp-port`: the port, what goes over it, and `osdp` beside it. Everything that is decided by
rules of the link `osdp` decides."""
VERSION = "0.1.0"
