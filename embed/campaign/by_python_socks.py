"""by_python_socks.py 5|4 PROXY_PORT HOST PORT: python-socks; the stream to standard output"""
import sys

from python_socks.sync import Proxy

version, proxy, host, port = sys.argv[1:]
through = Proxy.from_url(f"socks{version}://127.0.0.1:{proxy}", rdns=not host[0].isdigit())
connection = through.connect(dest_host=host, dest_port=int(port), timeout=10)
connection.settimeout(10)
while piece := connection.recv(65536):
    sys.stdout.buffer.write(piece)
