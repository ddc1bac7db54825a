"""Connects from an address to a port of this machine, and asks for `write([:a, 1])` by the bytes that Ruby sends.

Prints `served` where the reply is true and a reference, `refused` where the peer closes and sends nothing, and else what
came, in hexadecimal.
"""
import errno
import socket
import sys

REQUEST = bytes.fromhex(
    "00000003040830"  # the front object
    "0000000f040849220a7772697465063a064546"  # "write"
    "0000000404086906"  # one argument
    "0000000904085b073a06616906"  # [:a, 1]
    "00000003040830"  # no block
)
TRUE = bytes.fromhex("00000003040854")
REFERENCE = bytes.fromhex("0408753a134452623a3a4452624f626a656374")


def answer(address, port):
    """All that comes back until the peer closes."""
    came = b""
    with socket.socket() as line:
        line.settimeout(10)
        line.bind((address, 0))
        line.connect(("127.0.0.1", port))
        try:
            line.sendall(REQUEST)
            line.shutdown(socket.SHUT_WR)
            while piece := line.recv(4096):
                came += piece
        except (ConnectionResetError, BrokenPipeError):
            pass
        except OSError as fault:
            if fault.errno != errno.ENOTCONN:  # the peer has closed already
                raise
    return came


came = answer(sys.argv[1], int(sys.argv[2]))
if came.startswith(TRUE) and REFERENCE in came:
    print("served")
elif not came:
    print("refused")
else:
    print(came.hex())
