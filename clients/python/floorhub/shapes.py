"""What the server answers, as it stands in JSON. Times are RFC 3339; what isn't there is None."""
from typing import TypedDict

Created = TypedDict("Created", {"request": int, "status": str, "position": int, "place": int})
Entry = TypedDict("Entry", {"place": int, "time": str | None, "line": str})
Stopped = TypedDict("Stopped", {"seats": int, "events": int})
# `memory` is in bytes.
Server = TypedDict("Server", {
    "version": str, "since": str, "conferences": int, "connections": int, "memory": int, "draining": bool})
# How a conference stands: `phase` is open, ended or broken.
Conference = TypedDict("Conference", {
    "conference": int, "title": str | None, "phase": str, "members": int, "ongoing": int, "events": int, "kept": bool})
# A connection of a user: `behind` in messages, and for how many seconds it has been away.
Member = TypedDict("Member", {"member": int, "behind": int, "cut": bool, "away": int | None})
User = TypedDict("User", {
    "user": int, "name": str | None, "uri": str | None, "proxy": bool, "port": int | None, "removed": bool,
    "members": list[Member]})
# A floor, and the numbers of the requests that hold it, wait for it, and of which its chair hasn't decided.
Floor = TypedDict("Floor", {
    "floor": int, "title": str | None, "room": int, "chair": int | None, "holders": list[int], "waiting": list[int],
    "pending": list[int]})
FloorStatus = TypedDict("FloorStatus", {"floor": int, "status": str})
# A floor request: for `user`, asked by `by` where that is another.
Request = TypedDict("Request", {
    "request": int, "user": int, "by": int | None, "floors": list[FloorStatus], "status": str, "position": int,
    "priority": int | None, "info": str | None, "reason": str | None, "since": str | None, "granted": str | None})
# A whole conference, as it stands before the event at the place `next`.
Picture = TypedDict("Picture", {
    "next": int, "phase": str, "members": int, "ongoing": int, "title": str | None, "limit": int, "connections": int,
    "kept": bool, "users": list[User], "floors": list[Floor], "requests": list[Request], "words": dict[str, str]})
Holder = TypedDict("Holder", {"request": int, "user": int})
Holders = TypedDict("Holders", {"floor": int, "holders": list[Holder]})
