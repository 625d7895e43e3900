#!/usr/bin/env python3
"""sdp.py CONFIGURATION CONFERENCE USER ADDRESS PORT [FLOOR=LABEL ..] [--tls FINGERPRINT] [--tcp]

Writes the media description of an answer that lets a user's room system come to a conference's floors by floorudp, at
ADDRESS and PORT: m=application, a=floorctrl, a=confid, a=userid and a=floorid. LABEL is that of the media line whose
floor it is. --tls says that a front ends DTLS there, with this certificate's SHA-256; --tcp that it is BFCP over TCP,
with --tls over TLS, by a proxy before floorhub. Names are those of RFC 8856, as RFC 8857's examples have them.
"""
import sys
import tomllib


def main(words):
    fingerprint = words.pop(words.index("--tls") + 1) if "--tls" in words else None
    is_tcp = "--tcp" in words
    path, conference, user, address, port, *labels = [word for word in words if word not in ("--tls", "--tcp")]
    label_of = dict(label.split("=", 1) for label in labels)
    with open(path, "rb") as file:
        found = [it for it in tomllib.load(file)["conference"] if it["id"] == int(conference)]
    if not found or int(user) not in [it["id"] for it in found[0].get("user", [])]:
        sys.exit("%s: there is no user %s of a conference %s" % (path, user, conference))
    transport = ("TCP/TLS/BFCP" if fingerprint else "TCP/BFCP") if is_tcp else "UDP/TLS/BFCP" if fingerprint else "UDP/BFCP"
    print("m=application %s %s *" % (port, transport))
    print("c=IN %s %s" % ("IP6" if ":" in address else "IP4", address))
    print("a=floorctrl:s-only")
    print("a=bfcpver:%d" % (1 if is_tcp else 2))
    if fingerprint or is_tcp:
        print("a=setup:passive")
    if is_tcp:
        print("a=connection:new")
    if fingerprint:
        print("a=fingerprint:SHA-256 " + fingerprint)
    print("a=confid:%s\na=userid:%s" % (conference, user))
    for floor in found[0].get("floor", []):
        label = label_of.get(str(floor["id"]))
        print("a=floorid:%d%s" % (floor["id"], " mstrm:" + label if label else ""))


main(sys.argv[1:])
