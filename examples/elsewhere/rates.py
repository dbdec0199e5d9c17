#!/usr/bin/env python3
"""Rates of currencies by JSON-RPC 2.0 over HTTP, for rates.ol to call: rates.py [PORT], 9000 where none is given."""
import json
import sys
from http.server import BaseHTTPRequestHandler, HTTPServer

RATES = {("EUR", "USD"): 109, ("EUR", "CHF"): 96}


def answer(request):
    """The response to a request for the rate of a pair, in hundredths."""
    said = {"jsonrpc": "2.0", "id": request.get("id")}
    if request.get("method") != "rate":
        return {**said, "error": {"code": -32601, "message": "Method not found"}}
    pair = request["params"]["from"], request["params"]["to"]
    if pair not in RATES:
        return {**said, "error": {"code": -32000, "message": "Unknown", "data": pair[1]}}
    return {**said, "result": RATES[pair]}


class Handler(BaseHTTPRequestHandler):
    def do_POST(self):
        request = json.loads(self.rfile.read(int(self.headers["Content-Length"])))
        body = json.dumps(answer(request)).encode()
        self.send_response(200)
        self.send_header("Content-Type", "application/json")
        self.send_header("Content-Length", str(len(body)))
        self.end_headers()
        self.wfile.write(body)


HTTPServer(("127.0.0.1", int(sys.argv[1]) if len(sys.argv) > 1 else 9000), Handler).serve_forever()
