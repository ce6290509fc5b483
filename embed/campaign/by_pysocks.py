"""by_pysocks.py 5|4 PROXY_PORT HOST PORT: PySocks; the stream to standard output"""
import sys

import socks

version, proxy, host, port = sys.argv[1:]
connection = socks.socksocket()
connection.settimeout(10)
connection.set_proxy({"5": socks.SOCKS5, "4": socks.SOCKS4}[version], "127.0.0.1", int(proxy), rdns=not host[0].isdigit())
connection.connect((host, int(port)))
while piece := connection.recv(65536):
    sys.stdout.buffer.write(piece)
