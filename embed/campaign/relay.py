"""relay.py joined|cut LISTEN_ADDRESS PROXY_ADDRESS PROXY_PORT: listens on a free port, which it prints, and stands between a
client and the proxy. What the client sends goes on as it comes. What the proxy sends goes on

  joined  so that the last reply and the stream's start are one write; the relay waits for both, and says so on standard error;
  cut     byte by byte: each is sent when the client has read the one before.
"""
import contextlib
import errno
import os
import socket
import struct
import sys
import threading

START = 1024  # bytes of the stream that the last reply waits for, if the stream has as many
WAIT = 10     # seconds that it waits
NETLINK_SOCK_DIAG, SOCK_DIAG_BY_FAMILY, INET_DIAG_INFO = 4, 20, 2


class Ended(Exception):
    """the connection's other end is closed, or closing"""


class Source:
    """the proxy's bytes, by number"""

    def __init__(self, connection):
        self.connection, self.held = connection, b""

    def more(self):
        piece = self.connection.recv(65536)
        self.held += piece
        return len(piece) > 0

    def take(self, count):
        while len(self.held) < count:
            if not self.more():
                raise Ended
        taken, self.held = self.held[:count], self.held[count:]
        return taken


def last_reply(source, client, version):
    """passes on the replies before the last, and answers with that"""
    if version == 4:
        return source.take(8)
    method = source.take(2)
    client.sendall(method)
    if method[1] == 2:
        client.sendall(source.take(2))
    head = source.take(5)
    left = {1: 5, 3: head[4] + 2, 4: 17}[head[3]]
    return head + source.take(left)


def joined(proxy, client, version):
    source = Source(proxy)
    reply = last_reply(source, client, version)
    proxy.settimeout(WAIT)
    try:
        while len(source.held) < START and source.more():
            pass
    except TimeoutError:
        pass
    if source.held:
        print(f"joined {len(reply)} and {len(source.held)}", file=sys.stderr, flush=True)
    client.sendall(reply + source.held)
    proxy.settimeout(None)
    while piece := proxy.recv(65536):
        client.sendall(piece)


class Reader:
    """the other end of a connection of this machine, as the kernel tells of it by sock_diag(7)"""

    def __init__(self, connection):
        family = connection.family
        (near, near_port), (far, far_port) = connection.getsockname()[:2], connection.getpeername()[:2]
        # inet_diag_req_v2 for the socket's numbers and its tcp_info, seen from the other end
        body = struct.pack("=BBBBI", family, socket.IPPROTO_TCP, 1 << INET_DIAG_INFO - 1, 0, 0xFFFFFFFF)
        body += struct.pack("!HH", far_port, near_port)
        for address in far, near:
            body += socket.inet_pton(family, address).ljust(16, b"\0")
        body += struct.pack("=III", 0, 0xFFFFFFFF, 0xFFFFFFFF)
        self.request = struct.pack("=IHHII", 16 + len(body), SOCK_DIAG_BY_FAMILY, 1, 0, 0) + body
        self.netlink = socket.socket(socket.AF_NETLINK, socket.SOCK_DGRAM, NETLINK_SOCK_DIAG)

    def ask(self):
        """how many bytes came there, and how many of them wait unread"""
        self.netlink.send(self.request)
        answer = self.netlink.recv(4096)
        kind, = struct.unpack_from("=H", answer, 4)
        if kind != SOCK_DIAG_BY_FAMILY:
            error = -struct.unpack_from("=i", answer, 16)[0]
            raise Ended if error == errno.ENOENT else OSError(error, "sock_diag: " + os.strerror(error))
        unread, = struct.unpack_from("=I", answer, 16 + 56)
        at = 16 + 72
        while at < len(answer):
            length, kind = struct.unpack_from("=HH", answer, at)
            if kind == INET_DIAG_INFO:
                return struct.unpack_from("=Q", answer, at + 4 + 128)[0], unread
            at += (length + 3) & ~3
        raise Ended

    def wait(self, sent):
        """until all bytes sent are read. A byte on its way is not yet unread there: so the first question is whether all came. A read
        that took the byte might go on and take the next; but the kernel looks at tcp_info last, and with the socket locked: with the
        second answer that read has ended."""
        while self.ask()[0] < sent:
            os.sched_yield()
        while self.ask()[1] > 0:
            os.sched_yield()

    def close(self):
        self.netlink.close()


def cut(proxy, client, _version):
    sent = 0
    with contextlib.closing(Reader(client)) as reader:
        while piece := proxy.recv(65536):
            for byte in piece:
                client.sendall(bytes((byte,)))
                sent += 1
                reader.wait(sent)


def up(client, proxy):
    try:
        while piece := client.recv(65536):
            proxy.sendall(piece)
        proxy.shutdown(socket.SHUT_WR)
    except OSError:
        pass


def serve(client, way, address):
    with client:
        try:
            with socket.create_connection(address) as proxy:
                for end in client, proxy:
                    end.setsockopt(socket.IPPROTO_TCP, socket.TCP_NODELAY, 1)
                asked = client.recv(65536)
                if not asked:
                    return
                proxy.sendall(asked)
                rest = threading.Thread(target=up, args=(client, proxy), daemon=True)
                rest.start()
                try:
                    way(proxy, client, asked[0])
                except Ended:
                    pass
                client.shutdown(socket.SHUT_WR)
                rest.join(10)
        except OSError as e:
            if e.errno not in (errno.EPIPE, errno.ECONNRESET, errno.ENOTCONN):
                print("relay:", e, file=sys.stderr, flush=True)


def check_sock_diag():
    with socket.create_server(("127.0.0.1", 0)) as listener, socket.create_connection(listener.getsockname()) as far:
        near, _ = listener.accept()
        with near:
            near.sendall(b"..")
            far.recv(1)
            with contextlib.closing(Reader(near)) as reader:
                if reader.ask() != (2, 1):
                    sys.exit("relay: sock_diag does not count")


way = {"joined": joined, "cut": cut}[sys.argv[1]]
if way is cut:
    check_sock_diag()
listen, proxy, port = sys.argv[2:]
family = socket.AF_INET6 if ":" in listen else socket.AF_INET
listener = socket.create_server((listen, 0), family=family, backlog=256)
print(listener.getsockname()[1], flush=True)
while True:
    client, _ = listener.accept()
    threading.Thread(target=serve, args=(client, way, (proxy, int(port))), daemon=True).start()
