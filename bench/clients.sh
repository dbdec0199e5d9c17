#!/bin/sh
# Calls the proved program, which serves the examples, by curl, Python and, where they are there, h2load, wrk, the
# clients of libjson-rpc-cpp and jsonrpclib-pelix, and nginx: keeping connections, pipelining, in pieces, and as guests
# who behave ill; and fills runs up. Ports 8000, 8080 and 8443 have to be free. All of them, on Debian:
#
#     apt-get update
#     apt-get install g++ libjsonrpccpp-dev python3-jsonrpclib-pelix nghttp2-client wrk nginx openssl
#
# Outside the gate, after `rt ci`: bench/clients.sh
# shellcheck source=bench/common.sh
. "$(dirname "$0")/common.sh"
find_program
find_python
compile_cpp client -ljsonrpccpp-client
"$python" -B "$top/bench/clients.py" "$program" "$top/examples" "$compiled"
