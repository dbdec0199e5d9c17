/* Calls a service by libjson-rpc-cpp, on one connection that it keeps, for bench/clients.py:

       client URL [WORD METHOD PARAMS]..

   Each WORD is `call`, `notify` or `batch`, which calls twice in one batch; a line tells what was heard of each. */
#include <iostream>
#include <jsonrpccpp/client.h>
#include <jsonrpccpp/client/connectors/httpclient.h>
#include <string>

static std::string line(const Json::Value &value) {
    std::string text = Json::FastWriter().write(value);
    return text.substr(0, text.find('\n'));
}

static std::string heard(jsonrpc::Client &client, const std::string &word, const std::string &method,
                         const Json::Value &params) {
    if (word == "notify") {
        client.CallNotification(method, params);
        return "notified";
    }
    if (word == "call") {
        return line(client.CallMethod(method, params));
    }
    jsonrpc::BatchCall batch;
    int first = batch.addCall(method, params);
    int second = batch.addCall(method, params);
    jsonrpc::BatchResponse answers = client.CallProcedures(batch);
    return line(answers.getResult(first)) + " " + line(answers.getResult(second));
}

int main(int count, char **words) {
    jsonrpc::HttpClient connector(words[1]);
    jsonrpc::Client client(connector);
    for (int at = 2; at + 2 < count; at += 3) {
        Json::Value params;
        Json::Reader().parse(words[at + 2], params);
        try {
            std::cout << heard(client, words[at], words[at + 1], params) << std::endl;
        } catch (const jsonrpc::JsonRpcException &error) {
            std::cout << "error " << error.GetCode() << std::endl;
        }
    }
}
