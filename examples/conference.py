"""Two users come to a conference, and the first asks for its floor. A bridge has sockets where this prints."""
from floor import Hub

TEXT = """
[[conference]]
id = 1
user = [{id = 10}, {id = 11}]
floor = [{id = 1}]
"""
ASKS = bytes.fromhex('20010001 00000001 0001000a 04040001')  # FloorRequest, floor 1
WATCHES = bytes.fromhex('20070001 00000001 0001000b 04040001')  # FloorQuery, floor 1


def send_to(hub, connection):
    while some := hub.take_some(connection):
        parcels, data = some
        print(connection, 'is sent', parcels, 'messages of', len(data), 'bytes')
        hub.took(connection, parcels)


with Hub() as hub:
    hub.open(TEXT)
    ann, bob = hub.attach(1, 10), hub.attach(1, 11)
    for connection, data in ((bob, WATCHES), (ann, ASKS)):
        for told in hub.receive(connection, data):
            send_to(hub, told)
