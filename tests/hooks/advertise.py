#!/usr/bin/python3
"""advertise.py INTERFACE SOURCE FLAGS COUNT FILE: sends a router advertisement every 3 seconds from the address SOURCE, with the options of FILE, one a
line, read anew each time. radvd 2.19 has no option 144. FLAGS: 0x80 managed, 0x40 other configuration (RFC 4861 §4.2)."""
import pathlib
import socket
import struct
import sys
import time

interface = socket.if_nametoindex(sys.argv[1])
link = socket.socket(socket.AF_INET6, socket.SOCK_RAW, socket.IPPROTO_ICMPV6)
link.setsockopt(socket.IPPROTO_IPV6, socket.IPV6_MULTICAST_HOPS, 255)
link.bind((sys.argv[2], 0, 0, interface))
for _ in range(int(sys.argv[4])):
    options = bytes.fromhex(pathlib.Path(sys.argv[5]).read_text())
    # type 134, code, checksum (the kernel's), hop limit, flags, router lifetime, reachable time, retransmission time
    message = struct.pack(">BBHBBHII", 134, 0, 0, 64, int(sys.argv[3], 0), 1800, 0, 0) + options
    link.sendto(message, ("ff02::1", 0, 0, interface))
    # dhcpcd runs its hooks for each advertisement, one after another: sent faster than they run, advertisements would wait in line
    time.sleep(3)
