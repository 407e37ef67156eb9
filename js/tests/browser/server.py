"""A server of the files of a folder."""
import http.server
import threading
import urllib.parse


class Server:
    """Serves a folder. `headers` go with each file; `instead` has the text or the bytes of a path, or None where there is none, and may be changed."""

    def __init__(self, folder, headers=(), instead=()):
        self.instead = dict(instead)
        server = self

        class Handler(http.server.SimpleHTTPRequestHandler):
            extensions_map = {**http.server.SimpleHTTPRequestHandler.extensions_map, ".js": "text/javascript", ".wasm": "application/wasm"}

            def __init__(self, *words):
                super().__init__(*words, directory=folder)

            def do_GET(self):
                path = urllib.parse.urlsplit(self.path).path
                if path not in server.instead:
                    super().do_GET()
                elif server.instead[path] is None:
                    self.send_error(404)
                else:
                    data = server.instead[path]
                    data = data if isinstance(data, bytes) else data.encode()
                    self.send_response(200)
                    self.send_header("content-type", self.guess_type(path))
                    self.send_header("content-length", str(len(data)))
                    self.end_headers()
                    self.wfile.write(data)

            def end_headers(self):
                for name, value in {"cache-control": "no-cache", **dict(headers)}.items():
                    self.send_header(name, value)
                super().end_headers()

            def log_message(self, *_words):
                pass

        self.http = http.server.ThreadingHTTPServer(("127.0.0.1", 0), Handler)
        self.address = f"http://127.0.0.1:{self.http.server_address[1]}"
        threading.Thread(target=self.http.serve_forever, daemon=True).start()

    def close(self):
        """Ends it."""
        self.http.shutdown()
        self.http.server_close()
