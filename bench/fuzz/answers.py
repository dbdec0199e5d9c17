"""What is answered to a JSON-RPC text, by the rules of docs/json-rpc.md alone: nothing of the program is in it.

A text is read by the json of Python, and refused where that is more lenient than the rules. The answers of the service
`twice` are told whole; of other services the ids are, and the codes of what is refused before it reaches a service."""
import json
import re

LONGEST = 65536
DEEPEST = 127
MOST_SESSIONS = 4096

BLANKS = b" \t\r"
STRINGS = re.compile(r'"(?:[^"\\]|\\.)*"', re.DOTALL)

PARSE_ERROR = (-32700, "Parse error")
INVALID_REQUEST = (-32600, "Invalid Request")
UNKNOWN = (-32601, "Method not found")
INVALID_PARAMS = (-32602, "Invalid params")
RUN_FULL = (-32003, "run full")


class NoJson(Exception):
    """A text is no JSON text."""


class NoTree(Exception):
    """A value makes no tree."""


class Number:
    """A number that is no integer of 64 bits."""


def number_of(text):
    """A number as its text has it: an integer that 64 bits hold, or one that is none."""
    if abs(float(text)) == float("inf"):
        raise NoJson
    if text == "-0" or not text.lstrip("-").isdigit():
        return Number()
    number = int(text) if len(text) < 30 else 1 << 99
    return number if -(2**63) <= number < 2**64 else Number()


def refuse(_):
    raise NoJson


DECODER = json.JSONDecoder(parse_float=number_of, parse_int=number_of, parse_constant=refuse)


def read(line):
    """The value of a JSON text."""
    try:
        text = line.decode("utf-8")
    except UnicodeDecodeError:
        raise NoJson from None
    if deepest(text) > DEEPEST or has_half_of_a_pair(text):
        raise NoJson
    try:
        value, end = DECODER.raw_decode(text, len(text) - len(text.lstrip(" \t\r\n")))
    except ValueError:
        raise NoJson from None
    if text[end:].strip(" \t\r\n"):
        raise NoJson
    return value


def deepest(text):
    """How deep the arrays and objects of a JSON text nest."""
    if text.count("[") + text.count("{") <= DEEPEST:
        return 0
    depth = most = 0
    for sign in STRINGS.sub("", text):
        depth += (sign in "[{") - (sign in "]}")
        most = max(most, depth)
    return most


def has_half_of_a_pair(text):
    """Whether a string of a JSON text has an escape of half a pair, which Python takes."""
    if "\\u" not in text:
        return False
    for it in STRINGS.findall(text):
        try:
            json.loads(it).encode("utf-8")
        except UnicodeEncodeError:
            return True
        except ValueError:
            continue
    return False


def is_id(value):
    return value is None or isinstance(value, str) or type(value) is int


def is_request(value):
    if not isinstance(value, dict) or value.get("jsonrpc") != "2.0" or not isinstance(value.get("method"), str):
        return False
    params_are_right = value.get("params") is None or isinstance(value["params"], (dict, list))
    return params_are_right and is_id(value.get("id"))


def refusal(refused, name=None):
    code, message = refused
    return {"error": {"code": code, "message": message}, "id": name, "jsonrpc": "2.0"}


def answers(text, service):
    """What is answered to a text: none, one answer, or a list of them. `service` gives the answer of a request that was
    read, by its method, its params and its id: none where it can't be told."""
    if len(text) > LONGEST:
        return refusal(INVALID_REQUEST)
    try:
        value = read(text)
    except NoJson:
        return refusal(PARSE_ERROR)
    if isinstance(value, list) and value:
        answered = [it for it in (answer(request, service) for request in value) if it is not None]
        return answered or None
    return answer(value, service)


def answer(value, service):
    """What is answered to one request, none where it is a notification."""
    if not is_request(value):
        name = value.get("id") if isinstance(value, dict) else None
        return refusal(INVALID_REQUEST, name if is_id(name) else None)
    answered = service(value["method"], value.get("params"), value.get("id"))
    return answered if "id" in value else None


class Tree:
    """A node: its root, and its children, a list for each name."""

    def __init__(self, root=None):
        self.root = root
        self.children = {}


def tree_of_params(params):
    if params is None or params == []:
        return Tree()
    if isinstance(params, list):
        if len(params) > 1 or isinstance(params[0], list):
            raise NoTree
        return tree_of(params[0])
    return tree_of(params)


def tree_of(value):
    if not isinstance(value, dict):
        return Tree(root_of(value))
    tree = Tree()
    for name, it in value.items():
        if name == "$":
            tree.root = root_of(it)
        else:
            its = [tree_of(one) for one in (it if isinstance(it, list) else [it])]
            if its:
                tree.children[name] = its
    return tree


def root_of(value):
    if isinstance(value, (Number, dict, list)) or (type(value) is int and not -(2**63) <= value < 2**63):
        raise NoTree
    return value


class Twice:
    """What the service `twice` answers: the double of the int `n`. It counts the sessions that it begins."""

    def __init__(self):
        self.sessions = 0

    def __call__(self, method, params, name):
        try:
            tree = tree_of_params(params)
        except NoTree:
            return refusal(INVALID_PARAMS, name)
        if method != "twice":
            return refusal(UNKNOWN, name)
        if not self.takes(tree):
            return refusal(INVALID_PARAMS, name)
        if self.sessions == MOST_SESSIONS:
            return refusal(RUN_FULL, name)
        self.sessions += 1
        result = 2 * tree.children["n"][0].root
        if not -(2**31) <= result < 2**31:
            return {"error": {"code": -32000, "data": None, "message": "ExprFault"}, "id": name, "jsonrpc": "2.0"}
        return {"id": name, "jsonrpc": "2.0", "result": result}

    def takes(self, tree):
        if tree.root is not None or list(tree.children) != ["n"] or len(tree.children["n"]) != 1:
            return False
        node = tree.children["n"][0]
        return not node.children and type(node.root) is int and -(2**31) <= node.root < 2**31


def written(answered):
    """The bytes of an answer or of a list of them."""
    return json.dumps(answered, separators=(",", ":"), sort_keys=True, ensure_ascii=False).encode()
