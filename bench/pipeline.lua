-- Calls `twice` eight times at once on each connection, for wrk: wrk -s bench/pipeline.lua http://localhost:8000/
local calls

function init()
    wrk.method = "POST"
    wrk.body = '{"jsonrpc":"2.0","method":"twice","params":{"n":21},"id":1}'
    wrk.headers["Content-Type"] = "application/json"
    calls = wrk.format():rep(8)
end

function request()
    return calls
end
