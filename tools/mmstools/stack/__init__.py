"""What stands under MMS on TCP, once: the layers of ISO 9506-2's mapping, for either end of a connection.

    tpkt          RFC 1006      TPDUs in a stream of octets
    cotp          X.224         transport, class 0: connection, sizes, selectors, pieces
    session       X.225         connection, data, release, abort
    presentation  X.226         contexts and their numbers; what of the data is of which
    acse          X.227         association, its release and its abort, with MMS in them
    association   all of them   a server's end and a client's: octets in, PDUs out, and back
    link          asyncio       the two ends on TCP connections

Nothing here knows what a PDU of MMS means, but that an initiate-Response accepts and an initiate-Error refuses. All but
`link` takes octets and gives octets, and opens nothing. What breaks a layer's rules is raised as `Broken`, with the
layer's name.
"""
from . import acse, cotp, presentation, session, tpkt
from .association import ClientEnd, Item, Kind, ServerEnd, State
from .elements import Broken

__all__ = [
    "Broken", "ClientEnd", "Item", "Kind", "ServerEnd", "State", "acse", "cotp", "presentation", "session", "tpkt"
]
