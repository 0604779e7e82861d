"""What transactions do to a graph, as docs/RULES.md has it: written from that page, and not from the program.

A graph is a list of nodes, each with a value and its ports, and a transaction is a list, as in an input.
"""
WRAP = 2**64


def listed(txn):
    """The nodes of a transaction's list; of a transaction without a list, none."""
    if txn[0] == "get":
        return txn[2]
    if txn[0] == "add":
        return [n for n, _ in txn[2]]
    return txn[1:3] if txn[0] == "move" else []


def first_double(txn):
    """The first node of the list that stands earlier in it too, or None."""
    nodes = listed(txn)
    return next((n for at, n in enumerate(nodes) if n in nodes[:at]), None)


def walk(graph, start, port, length):
    """The nodes of a walk, and its stop."""
    nodes = [start]
    while True:
        following = graph[nodes[-1]]["ports"][port]
        if len(nodes) == length or following is None or following in nodes:
            return nodes, following
        nodes.append(following)


def told(number):
    return "-" if number is None else str(number)


def moved(source, target, amount):
    """Moves the amount where both values allow that."""
    if source["value"] < amount:
        return "short"
    if target["value"] + amount >= WRAP:
        return "full"
    source["value"] -= amount
    target["value"] += amount
    return "moved"


def carry_out(graph, txn):
    """Changes the graph as the transaction does, and returns the text of its reply."""
    word = txn[0]
    if word == "get":
        return " ".join(["values", *(str(graph[n]["value"]) for n in txn[2])])
    if word == "peek":
        return f"values {graph[txn[1]]['value']}"
    if word == "add":
        for n, amount in txn[2]:
            graph[n]["value"] = (graph[n]["value"] + amount) % WRAP
        return "done"
    if word == "move":
        return moved(graph[txn[1]], graph[txn[2]], txn[3])
    if word == "link":
        ports = graph[txn[1]]["ports"]
        before, ports[txn[2]] = ports[txn[2]], txn[3]
        return f"was {told(before)}"
    nodes, stop = walk(graph, *txn[1:])
    if word == "sum":
        return f"sum {len(nodes)} {sum(graph[n]['value'] for n in nodes)}"
    for n, before in zip(nodes, [stop, *nodes]):
        graph[n]["ports"][txn[2]] = before
    return f"end {nodes[-1]}"


def graph_of(nodes):
    """A graph with these nodes, which an input has: changing it leaves them as they are."""
    return [{"value": it["value"], "ports": list(it["ports"])} for it in nodes]


def node_lines(graph):
    """What an outcome tells of its last graph."""
    return [" ".join(["node", str(n), str(it["value"]), *map(told, it["ports"])]) for n, it in enumerate(graph)]
