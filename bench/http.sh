#!/bin/sh
# Prints figures of `serve`: requests a second beside a server of jsonrpclib-pelix and one of libjson-rpc-cpp
# (bench/server.cpp), by h2load; the memory of a run behind many requests; and what a flood, slow peers (with nginx in
# front too) and more connections than may be open do to it. What is not installed is left out (bench/clients.sh says
# how to install it). Ports 8000 to 8002 and 8080 have to be free. It takes some three minutes, and needs a program that
# `rt ci` has proved, outside the gate: bench/http.sh
# shellcheck source=bench/common.sh
. "$(dirname "$0")/common.sh"
find_program
find_python
compile_cpp server -ljsonrpccpp-server
"$python" -B "$top/bench/crowds.py" "$program" "$top/examples" "$work" "$compiled"
