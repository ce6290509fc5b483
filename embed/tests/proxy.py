"""proxy.py together|apart COUNT [PORT]: a SOCKS proxy on that port of 127.0.0.1, or a free one, which it prints first, for COUNT clients.

It connects to nothing: it grants every request, with a stream that says what was asked for. together: the last reply and the stream go in
one write, as they may behind a busy proxy. apart: every byte in its own.
"""
import ipaddress
import socket
import sys
import time


def serve(client, apart):
    def take(n):
        data = b""
        while len(data) < n:
            more = client.recv(n - len(data))
            if not more:
                raise EOFError
            data += more
        return data

    def take_text():
        text = b""
        while (byte := take(1)) != b"\0":
            text += byte
        return text

    def say(data):
        for piece in [data[i:i + 1] for i in range(len(data))] if apart else [data]:
            client.sendall(piece)
            time.sleep(0.001 if apart else 0)

    version, who = take(1)[0], b"-"
    if version == 5:
        methods = take(take(1)[0])
        say(bytes([5, methods[0]]))
        if methods[0] == 2:
            take(1)
            user, password = take(take(1)[0]), take(take(1)[0])
            who = user + b":" + password
            say(b"\1\0")
        kind = take(4)[3]
        host = take(take(1)[0]).decode() if kind == 3 else str(ipaddress.ip_address(take(4 if kind == 1 else 16)))
        port = int.from_bytes(take(2), "big")
        reply = b"\5\0\0\1\xc0\0\2\7\x1f\x90"
    else:
        take(1)
        port = int.from_bytes(take(2), "big")
        address = take(4)
        take_text()
        named = address[:3] == b"\0\0\0" and address[3] != 0
        host = take_text().decode() if named else str(ipaddress.ip_address(address))
        reply = b"\0\x5a\x1f\x90\xc0\0\2\7"
    say(reply + f"{version} {host} {port} {who.decode()}\n".encode())


listener = socket.create_server(("127.0.0.1", int(sys.argv[3]) if len(sys.argv) > 3 else 0))
print(listener.getsockname()[1], flush=True)
listener.settimeout(60)
for _ in range(int(sys.argv[2])):
    connection, _ = listener.accept()
    connection.settimeout(10)
    connection.setsockopt(socket.IPPROTO_TCP, socket.TCP_NODELAY, 1)
    with connection:
        serve(connection, sys.argv[1] == "apart")
