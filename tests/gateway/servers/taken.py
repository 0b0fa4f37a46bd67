"""Takes requests by h11, and prints of each one the client's port, the method, and target and content in hexadecimal."""
import socket
import sys
import threading

import h11


def serve(connection: socket.socket, port: int) -> None:
    peer = h11.Connection(h11.SERVER)
    connection.settimeout(5)
    head, content = None, b""
    while True:
        try:
            event = peer.next_event()
        except h11.RemoteProtocolError as error:
            if peer.our_state in (h11.IDLE, h11.SEND_RESPONSE):
                answer = h11.Response(status_code=error.error_status_hint, headers=[("content-length", "0")])
                connection.sendall(peer.send(answer) + (peer.send(h11.EndOfMessage()) or b""))
            return
        if event is h11.NEED_DATA:
            if peer.they_are_waiting_for_100_continue:
                connection.sendall(peer.send(h11.InformationalResponse(status_code=100, headers=[])))
            peer.receive_data(connection.recv(65536))
        elif isinstance(event, h11.Request):
            head, content = event, b""
        elif isinstance(event, h11.Data):
            content += event.data
        elif isinstance(event, h11.EndOfMessage):
            print(port, head.method.decode("latin-1"), head.target.hex(), content.hex(), flush=True)
            answer = h11.Response(status_code=200, headers=[("content-length", "2")])
            connection.sendall(peer.send(answer) + peer.send(h11.Data(b"ok")) + (peer.send(h11.EndOfMessage()) or b""))
            if peer.our_state is not h11.DONE or peer.their_state is not h11.DONE:
                return
            peer.start_next_cycle()
        else:
            return


def guarded(connection: socket.socket, port: int) -> None:
    with connection:
        try:
            serve(connection, port)
        except OSError:
            return


def main() -> None:
    with socket.create_server(("127.0.0.1", int(sys.argv[1]))) as listener:
        while True:
            connection, (_, port) = listener.accept()
            threading.Thread(target=guarded, args=(connection, port), daemon=True).start()


main()
