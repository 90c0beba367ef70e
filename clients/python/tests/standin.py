"""A server in the test's hands, over TCP: what the program says seldom can be had of it."""

import json
import socketserver
import threading


class StandIn:
    """Listens on a free port. `answer(message)` gives the replies to a message, as objects; hello is answered by itself."""

    def __init__(self, answer):
        self.messages = []  # all that came but hello

        class Session(socketserver.StreamRequestHandler):
            disable_nagle_algorithm = True

            def handle(session):
                for line in session.rfile:
                    message = json.loads(line)
                    if message["do"] == "hello":
                        replies = [{"ok": "hello"}]
                    else:
                        self.messages.append(message)
                        replies = answer(message)
                    session.wfile.write(b"".join(json.dumps(reply).encode() + b"\n" for reply in replies))

        self.server = socketserver.ThreadingTCPServer(("127.0.0.1", 0), Session)
        self.server.daemon_threads = True
        self.address = self.server.server_address
        threading.Thread(target=self.server.serve_forever, args=[0.05], daemon=True).start()

    def close(self):
        self.server.shutdown()
        self.server.server_close()
