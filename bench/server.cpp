/* Serves `twice` by libjson-rpc-cpp's own server, for bench/http.sh: server PORT. It ends when it is killed. */
#include <cstdlib>
#include <jsonrpccpp/server.h>
#include <jsonrpccpp/server/connectors/httpserver.h>
#include <unistd.h>

class Twice : public jsonrpc::AbstractServer<Twice> {
public:
    explicit Twice(jsonrpc::AbstractServerConnector &connector) : jsonrpc::AbstractServer<Twice>(connector) {
        jsonrpc::Procedure twice("twice", jsonrpc::PARAMS_BY_NAME, jsonrpc::JSON_INTEGER, "n", jsonrpc::JSON_INTEGER, NULL);
        bindAndAddMethod(twice, &Twice::twice);
    }

    void twice(const Json::Value &request, Json::Value &response) {
        response = request["n"].asInt() * 2;
    }
};

int main(int, char **words) {
    jsonrpc::HttpServer connector(std::atoi(words[1]));
    Twice server(connector);
    server.StartListening();
    for (;;) {
        pause();
    }
}
