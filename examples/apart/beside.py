"""What the tools of this folder share beside the packets."""

import importlib.util
import pathlib
import socket
import sys
from importlib.machinery import SourceFileLoader

HERE = pathlib.Path(__file__).resolve().parent
# Where the launchers of the programs are, which find the proved ones or build them without proof.
TOP = HERE.parent.parent
# Where `tool` is, which says how a tool takes its words and ends.
sys.path.append(str(HERE.parent))
# The twelve numbers of a shape, as a plan names them.
FIELDS = ["servers", "buckets", "depth", "retained", "block", "filter", "hits", "ahead", "clients", "phases", "ticks",
          "logs"]


def tool(name):
    """The tool of this name, as a module."""
    loader = SourceFileLoader(name, str(HERE / name))
    module = importlib.util.module_from_spec(importlib.util.spec_from_loader(name, loader))
    loader.exec_module(module)
    return module


def free_ports(count, host="127.0.0.1"):
    """Ports of an address of the loopback that nobody has."""
    socks = [socket.create_server((host, 0)) for _ in range(count)]
    ports = [it.getsockname()[1] for it in socks]
    for it in socks:
        it.close()
    return ports
