"""What the program says of three plain texts (no quotes, no mark at the front): the first refusal, by the rules alone."""

HEADERS = {"network": "from,to,seconds", "fleet": "vehicle,seats,node,second", "script": "round,lane,command,a,b,c,d"}
CODES = {"network": 3, "fleet": 4, "script": 5}
FIELDS = {"submit": 4, "cancel": 1, "report": 3, "pickup": 3, "dropoff": 3, "seal": 1}
GREATEST = 1_000_000_000


class Refusal(Exception):
    pass


def number(fields, column, row, greatest=GREATEST):
    text = fields[column - 1]
    if not text.isdigit() or int(text) > greatest:
        raise Refusal(f"bad number at row {row} column {column}")
    return int(text)


def rows(text, header):
    """The rows under the header, each with its number."""
    lines = [line for line in text.splitlines() if line]
    if lines[:1] != [header]:
        raise Refusal(f"wrong header of {len(lines[0].split(',')) if lines else 0} fields")
    found = [line.split(",") for line in lines[1:]]
    for row, fields in enumerate(found, 1):
        if len(fields) != len(header.split(",")):
            raise Refusal(f"row {row} has another length")
    return list(enumerate(found, 1))


def judge_network(found):
    nodes = set()
    for row, fields in found:
        start, end = number(fields, 1, row), number(fields, 2, row)
        if number(fields, 3, row, 2**64 - 1) > 10_000:
            raise Refusal(f"arc too long at row {row}")
        nodes |= {start, end}
    return nodes


def judge_fleet(found, nodes):
    seen = set()
    for row, fields in found:
        vehicle, seats, node, _ = (number(fields, column, row) for column in range(1, 5))
        if not 1 <= seats <= 10:
            raise Refusal(f"bad seats at row {row}")
        if node not in nodes:
            raise Refusal(f"unknown node at row {row}")
        if vehicle in seen:
            raise Refusal(f"repeated vehicle at row {row}")
        seen.add(vehicle)


def judge_script(found):
    last = 0
    for row, fields in found:
        here, lane, word = number(fields, 1, row), number(fields, 2, row), fields[2]
        if lane > 15:
            raise Refusal(f"lane above 15 at row {row}")
        if here < last:
            raise Refusal(f"round goes back at row {row}")
        if word not in FIELDS:
            raise Refusal(f"unknown command at row {row}")
        last, used = here, FIELDS[word]
        for column in range(4, 4 + used):
            number(fields, column, row)
        if any(fields[3 + used :]):
            raise Refusal(f"field not empty at row {row}")
        if word == "seal" and lane:
            raise Refusal(f"seal outside lane 0 at row {row}")


def refusal(texts):
    """The status and the line on standard error that three texts are refused with, or None."""
    name = "network"
    try:
        nodes = judge_network(rows(texts[name], HEADERS[name]))
        name = "fleet"
        judge_fleet(rows(texts[name], HEADERS[name]), nodes)
        name = "script"
        judge_script(rows(texts[name], HEADERS[name]))
    except Refusal as why:
        return CODES[name], f"ridepool: {name}: {why}\n"
    return None
