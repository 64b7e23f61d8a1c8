"""The rules of `osi judge`: what a side sent, why it may not, and the clause of X.225, X.224 or RFC 1006 that says so.

A clause is quoted by its number and its title. The numbers are those of X.225 and X.224 of November 1995; where a number isn't certain
the title is quoted alone.
"""
import re

X_225 = {"7.1": "CONNECT SPDU", "7.4": "ACCEPT SPDU", "7.5": "REFUSE SPDU", "7.6": "FINISH SPDU", "7.7": "DISCONNECT SPDU",
         "7.8": "NOT FINISHED SPDU", "7.9": "ABORT SPDU", "7.10": "ABORT ACCEPT SPDU", "7.11": "DATA TRANSFER SPDU",
         "7.16": "GIVE TOKENS SPDU", "7.17": "PLEASE TOKENS SPDU", "7.20": "MINOR SYNC POINT SPDU", "7.21": "MINOR SYNC ACK SPDU",
         "7.22": "MAJOR SYNC POINT SPDU", "7.23": "MAJOR SYNC ACK SPDU", "7.24": "RESYNCHRONIZE SPDU", "7.25": "RESYNCHRONIZE ACK SPDU",
         "8": "Structure and encoding of SPDUs", "8.2": "SPDU structure", "8.3": "SPDU identifiers and associated parameter fields",
         "Annex A": "State tables"}
X_224 = {"6.5": "Connection establishment", "6.7": "Normal release", "6.9": "Association of TPDUs with transport connections",
         "6.10": "Data TPDU numbering", "6.15": "Multiplexing and demultiplexing", "6.16": "Explicit flow control",
         "13.2.1": "Length indicator field", "13.2.2": "Fixed part", "13.2.3": "Variable part",
         "13.3.4": "Connection request TPDU, variable part"}

# What a side sent, by the call that sends such a unit, and the clause of X.225 on its procedure.
UNITS = {"Connect": ("a connect request (CN)", "7.1"), "Accept": ("an acceptance (AC)", "7.4"), "Refuse": ("a refusal (RF)", "7.5"),
         "Release": ("a request for the release (FN)", "7.6"), "ReleaseAccept": ("the agreement to a release (DN)", "7.7"),
         "ReleaseRefuse": ("the refusal of a release (NF)", "7.8"), "Abort": ("an abort (AB)", "7.9"),
         "AbortAccept": ("the answer to an abort (AA)", "7.10"), "Data": ("data (DT)", "7.11"), "Give": ("tokens (GT)", "7.16"),
         "Please": ("a request for tokens (PT)", "7.17"), "Minor": ("a minor synchronization point (MIP)", "7.20"),
         "MinorConfirm": ("the confirmation of a minor point (MIA)", "7.21"), "Major": ("a major synchronization point (MAP)", "7.22"),
         "MajorConfirm": ("the confirmation of a major point (MAA)", "7.23"), "Restart": ("a restart (RS)", "7.24"),
         "RestartConfirm": ("the answer to a restart (RA)", "7.25")}
# The same below the session.
BELOW = {"TSDU": "a TSDU", "TPKT": "octets", "TPDU": "a transport unit", "DT": "a data unit of transport (DT)",
         "DR": "a disconnect request (DR)", "DC": "a disconnect confirm (DC)", "CR": "a connect request of transport (CR)",
         "CC": "a connect confirm of transport (CC)", "AK": "an acknowledgement (AK)", "ER": "an error report (ER)"}
SENT = {**{name: text for name, (text, _) in UNITS.items()}, **BELOW}

# Why a session may not send a unit, and the clauses of X.225 beside that of the unit; `{..}` is filled from the state of the side.
OF_SESSIONS = {
    "BadState": ("a session may not send that in the phase {phase}", "Annex A"),
    "Ended": ("its connection had ended", "Annex A"),
    "NoSuchConnection": ("there is no such connection", "Annex A"),
    "NotSelected": ("that needs a functional unit or a token that isn't selected", "Functional units"),
    "TokenNotHeld": ("it did not hold the tokens for that", "Tokens"),
    "TokenAlreadyHeld": ("it held these tokens itself", "Tokens"),
    "Empty": ("it has nothing in it", ""),
    "TooLong": ("that is longer than the agreed size, or than X.225 allows", "Segmenting"),
    "BadNumber": ("its number is not one that is allowed: the next number was {next}, all below {below} were confirmed, and a restart may "
                  "go back to {lowest}", "Local variables"),
    "SerialsUsedUp": ("the numbers are used up", "Local variables"),
    "BadTokens": ("it puts tokens on a side that was not asked for", "Tokens"),
    "BadEnclosure": ("a part of the data is out of its place", "Segmenting"),
    "NoFault": ("it reports a protocol error, and there had been none", "")}
# Why a TSDU is no valid group of session units, with the clauses of X.225.
OF_TSDUS = {
    "LengthPastEnd": ("a length in it goes past its end", "8.2"),
    "UnknownSi": ("it has a unit with an SI that isn't known, or of a functional unit that isn't selected", "8.2"),
    "BadConcatenation": ("its units may not follow each other in one TSDU", "Concatenation"),
    "DuplicateParameter": ("a parameter in it occurs twice", "8.2"),
    "BadValue": ("a parameter in it has a value that isn't allowed", "8.3"),
    "MissingParameter": ("a parameter is missing that its unit must have", "8.3"),
    "TrailingOctets": ("octets follow its last unit", "Concatenation")}
# Rules of transport, with the clauses of X.224; `{..}` is filled from the packet and those before it.
OF_TRANSPORT = {
    "BadLi": ("its length indicator is not one that its code and its packet allow", "13.2.1"),
    "UnknownCode": ("its code{code} is none of the classes 0 and 2", "13.2.2"),
    "BadParameterLength": ("one of its parameters has a wrong length, or goes past the header", "13.2.3"),
    "DuplicateParameter": ("one of its parameters occurs twice", "13.2.3"),
    "BadParameterValue": ("its TPDU size is none that X.224 has", "13.3.4"),
    "UnexpectedUnit": ("a unit of this kind has no place there", "6.5"),
    "OneConnection": ("class 0 has one connection", "6.15"),
    "Negotiating": ("another request is not answered yet, so the class is not known", "6.5"),
    "ReferenceInUse": ("its reference{source} is that of another connection of this side", "6.5"),
    "UnknownReference": ("there is no connection with the reference{target}", "6.9"),
    "WrongForm": ("it refuses no connect request, and class 0 has no such unit for an open connection", "6.7"),
    "BadAnswer": ("it selects what the connect request doesn't offer", "6.5"),
    "LargerSize": ("it selects TPDUs of {size} octets, and the connect request offers {offered}", "13.3.4"),
    "Closed": ("this side had closed the connection", "6.7"),
    "OutOfSequence": ("its number{number} is not the next one", "6.10"),
    "NoCredit": ("the other side had given no credit for it", "6.16"),
    "CreditReduced": ("it takes credit back", "6.16"),
    "SizeExceeded": ("it has {octets} octets, and the agreed TPDU size is {agreed}", "13.3.4"),
    "TsduTooLong": ("it makes a TSDU longer than 1,048,576 octets, the limit of this product; X.224 has none", ""),
    "TooMany": ("that is more connections than are judged at once, or it can't be told whether it is right", "6.5")}
# Of a packet (RFC 1006 section 6).
OF_PACKETS = {"BadVersion": "no packet begins there: its first octet{first} is not 3",
              "BadLength": "the header there says that the packet has fewer than 7 octets"}
# Why, if not everything is known of the packet and of the state of its side.
UNKNOWN = {"BadNumber": "its number is not one that is allowed", "SizeExceeded": "it has more octets than the agreed TPDU size",
           "LargerSize": "it selects a larger TPDU size than the connect request offers"}
# Of several of these.
ANSWERS = {"AbortAccept": "there was no abort to answer",
           "DC": "there was no disconnect request with its references that is not answered yet"}
OUTSIDE = "the standard allows that, and this product leaves it out"


def text_of(what, rule):
    """Why a side may not send this, with places to be filled; None if the rule isn't known."""
    if rule == "Outside":
        return OUTSIDE
    if rule == "NothingToAnswer":
        return ANSWERS.get(what, "there was nothing to answer")
    found = OF_PACKETS.get(rule) or table_of(what).get(rule) or OF_SESSIONS.get(rule) or OF_TRANSPORT.get(rule) or OF_TSDUS.get(rule)
    return found if isinstance(found, str) or found is None else found[0]


def table_of(what):
    """The rules for what was sent."""
    return OF_TSDUS if what == "TSDU" else OF_SESSIONS if what in UNITS else OF_TRANSPORT


def quoted(titles, *clauses):
    """Clauses as one quotes them: each by its number, if it is known, and its title."""
    return " and ".join(f'{clause} "{titles[clause]}"' if clause in titles else f'"{clause}"' for clause in clauses if clause)


def clause_of(what, rule):
    """The clause of the standard, as one quotes it; None if the rule isn't known, or is none of a standard."""
    if rule in OF_PACKETS:
        return 'RFC 1006, 6 "Packet Format"'
    if what in UNITS or what == "TSDU":
        found = session_clauses(what, rule)
        return f"X.225, {quoted(X_225, *found)}" if found else None
    found = transport_clause(what, rule)
    return f"X.224, {quoted(X_224, found)}" if found else None


def session_clauses(what, rule):
    """The clauses of X.225: that on the unit, and that on the rule."""
    if what == "TSDU":
        return [OF_TSDUS[rule][1]] if rule in OF_TSDUS else ["8"] if rule == "Outside" else []
    if rule in ("Outside", "NothingToAnswer"):
        return [UNITS[what][1]]
    return [UNITS[what][1], OF_SESSIONS[rule][1]] if rule in OF_SESSIONS else []


def transport_clause(what, rule):
    """The clause of X.224."""
    if rule == "NothingToAnswer":
        return "6.7"
    if (what, rule) == ("AK", "OutOfSequence"):
        return "6.16"
    return "6.5" if rule == "Outside" else OF_TRANSPORT.get(rule, (None, None))[1]


def why(what, rule, known):
    """Why a side may not send this, in words."""
    text = text_of(what, rule)
    if text is None:
        return f"`osi judge` calls that {rule}"
    is_known = all(name in known for name in re.findall(r"{(\w+)}", text))
    return (text if is_known else UNKNOWN.get(rule, text)).format_map(Known(known))


class Known(dict):
    """What is known of a packet and of the state of its side; words for what isn't."""

    def __missing__(self, key):
        return "that it was in" if key == "phase" else ""
