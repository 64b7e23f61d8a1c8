"""How many octets a message takes: as session units of X.225, in data units of X.224, in packets.

A transcript says what users call and how many octets a carry moved. It doesn't say where a packet ends, so a picture needs the
lengths of the packets, and this file knows them a second time. If one of these changes in the crates, change it here, too:

- `osi_spdu`, `writing.rt`: the parameters of each unit and their lengths (WRITTEN, `coded`, `optional`, HEADER_OF_PART);
- `osi_tpdu`: the headers of a CC, DR, DC, DT and AK (CONFIRMED, CLOSING, CLOSED, DATA_UNIT, ACKNOWLEDGED);
- `osi_message`, `parts.rt`: where the user data of a TSDU that is too long is cut (`tsdu_lengths`), and which size is agreed (`smaller`).

The tests draw the stored runs, and fail if a carry moved another number of octets than these lengths give.
"""

PACKET, DATA_UNIT, ACKNOWLEDGED = 4, {"0": 3, "2": 5}, 9
CLOSING, CLOSED, CONFIRMED = 11, 10, {"0": 14, "2": 17}
POINTS = 0x08 | 0x10 | 0x20
SMALLEST_LIMIT = 123
SIZES = ("asker", "answerer")
# A part of a Data: an empty GT, then the DT's code and length and its enclosure item, in front of the user data.
HEADER_OF_PART = 2 + 2 + 3


def coded(octets):
    """A code, a length and a value of so many octets."""
    return (2 if octets <= 254 else 4) + octets


def optional(octets):
    """User data, which is not written if it is empty. If its length isn't known (None), neither is that of the unit (TypeError)."""
    return coded(octets) if octets != 0 else 0


def serial_length(number):
    """The parameter with a serial number."""
    return coded(len(str(int(number))))


def sizes_length(fields):
    """The parameter with the sizes of TSDUs, which is not written if both are 0."""
    return coded(4) if any(int(fields.get(size) or 0) for size in SIZES) else 0


def opening(fields, data):
    """CN or AC."""
    serial = fields.get("serial")
    has_serial = serial != "-" and bool(int(fields["units"], 16) & POINTS)
    group = 3 + sizes_length(fields) + 3 + (serial_length(serial) if has_serial else 0) + 3
    return coded(coded(group) + 4 + optional(data))


def behind_a_token_item(*parameters):
    """A unit of category 2 with these parameters, after an empty GT."""
    return 2 + coded(sum(parameters))


def tsdu_length(name, fields):
    """The length of the TSDU of a call, or None if a field that it depends on is not known."""
    data = fields.get("data")
    octets = None if data is None else 0 if data == "-" else len(data) // 2
    try:
        return WRITTEN[name](fields, octets)
    except (KeyError, TypeError):
        return None


def smaller(size, answer):
    """The agreed size of TSDUs for one direction, from those of the CN and of the answerer; 0 if the CN has none (X.225 6.3)."""
    asked, answered = int(size or 0), int(answer or 0)
    return min(asked, answered) if asked and answered else asked


def tsdu_lengths(name, fields, most):
    """The lengths of the TSDUs of a call, [None] if they are not known.

    Data leaves in parts if it would be longer than `most` octets as one TSDU; 0 is no limit."""
    whole = tsdu_length(name, fields)
    if name != "data" or not most or whole is None or whole <= most:
        return [whole]
    data, room = len(fields["data"]) // 2, most - HEADER_OF_PART
    return [HEADER_OF_PART + min(room, data - start) for start in range(0, data, room)]


WRITTEN = {
    "connect": opening,
    "accept": opening,
    "refuse": lambda fields, data: coded(3 + coded(1 + data)),
    "data": lambda fields, data: 4 + data,
    "give": lambda fields, data: 5,
    "please": lambda fields, data: coded(3 + optional(data)),
    "minor": lambda fields, data: behind_a_token_item(
        {"yes": 0, "no": 3}[fields["confirm"]], serial_length(fields["number"]), optional(data)),
    "minorconfirm": lambda fields, data: behind_a_token_item(serial_length(fields["number"]), optional(data)),
    "major": lambda fields, data: behind_a_token_item(3, serial_length(fields["number"]), optional(data)),
    "majorconfirm": lambda fields, data: behind_a_token_item(serial_length(fields["number"]), optional(data)),
    "restart": lambda fields, data: behind_a_token_item(
        3, 3, serial_length(fields["number"]), optional(data)),
    "restartconfirm": lambda fields, data: behind_a_token_item(
        3, serial_length(fields["number"]), optional(data)),
    "release": lambda fields, data: coded(optional(data)),
    "releaseaccept": lambda fields, data: coded(optional(data)),
    "releaserefuse": lambda fields, data: coded(optional(data)),
    "abort": lambda fields, data: coded(3 + optional(data)),
    "answer to an abort": lambda fields, data: 2,
}


def parts(tsdu, link_class, limit):
    """The lengths of the packets of a TSDU, or None if they are not known.

    `limit` is the largest number of octets of a TSDU in one data unit, or None if it is not known."""
    if tsdu is None or link_class not in DATA_UNIT:
        return None
    if limit is None and tsdu > SMALLEST_LIMIT:
        return None
    header = PACKET + DATA_UNIT[link_class]
    limit = limit or SMALLEST_LIMIT
    whole, rest = divmod(tsdu, limit)
    sizes = [limit] * whole + ([rest] if rest or not whole else [])
    return [header + size for size in sizes]
