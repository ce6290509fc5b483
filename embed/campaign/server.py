"""server.py FILE..: a server that sends first. It listens on one free port for each FILE, of 127.0.0.1 and of ::1, prints the
ports in one line, and sends every connection that file at once; then it says the stream's end and reads to the other's."""
import socket
import sys
import threading


def serve(connection, stream):
    with connection:
        try:
            connection.settimeout(30)
            connection.setsockopt(socket.IPPROTO_TCP, socket.TCP_NODELAY, 1)
            connection.sendall(stream)
            connection.shutdown(socket.SHUT_WR)
            # left at once, with a client's bytes unread, the connection would be reset and the stream's end be lost
            while connection.recv(65536):
                pass
        except OSError:
            pass


def accept(listener, stream):
    while True:
        connection, _ = listener.accept()
        threading.Thread(target=serve, args=(connection, stream), daemon=True).start()


def listen():
    """one port, of both addresses"""
    while True:
        both = [socket.create_server(("127.0.0.1", 0), backlog=256)]
        port = both[0].getsockname()[1]
        try:
            both.append(socket.create_server(("::1", port), family=socket.AF_INET6, backlog=256))
            return port, both
        except OSError:
            both[0].close()


ports = []
for path in sys.argv[1:]:
    with open(path, "rb") as file:
        bytes_ = file.read()
    port, both = listen()
    ports.append(port)
    for listener in both:
        threading.Thread(target=accept, args=(listener, bytes_), daemon=True).start()
print(*ports, flush=True)
threading.Event().wait()
