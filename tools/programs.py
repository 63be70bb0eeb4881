"""Plain models of the programs that keep a journal: random requests, and the expected replies."""


class Registry:
    """Ids with names, as `demo_registry` keeps them."""

    SHOW = "list"

    def __init__(self, members=()):
        self.names = dict(members)

    def copy(self):
        return Registry(self.names)

    def pairs(self):
        return sorted(self.names.items())

    def show(self):
        return f"{len(self.names)} are registered\n" + "".join(f"{it} {name}\n" for it, name in self.pairs())

    def request(self, chance):
        """Returns a random request, and performs it. The second value is the reply."""
        number, other = chance.randrange(30), chance.randrange(30)
        name, second = f"n{chance.randrange(30)}", f"n{chance.randrange(30)}"
        kind = chance.choice(["register", "register", "rename", "renumber", "batch", "compact"])
        ids = {it: number for number, it in self.names.items()}
        if kind == "compact":
            return kind, "FILE has a line for each member"
        if kind == "register":
            free = number not in self.names and name not in ids
            if free:
                self.names[number] = name
            return f"register {number} {name}", f"{number} is {name}" if free else f"{number} or {name} is taken"
        if kind == "rename":
            said = f"{second} is taken" if second in ids and second != name else f"{name} is now {second}"
            if name not in ids:
                said = f"{name} is not registered"
            elif "now" in said:
                self.names[ids[name]] = second
            return f"rename {name} to {second}", said
        if kind == "renumber":
            said = f"{other} is taken" if other in self.names and other != number else f"{number} is now {other}"
            if number not in self.names:
                said = f"{number} is not registered"
            elif "now" in said:
                self.names[other] = self.names.pop(number)
            return f"renumber {number} to {other}", said
        return self.batch([(number, name), (other, second)])

    def batch(self, members):
        new = self.copy()
        line = "batch " + " ".join(f"{number} {name}" for number, name in members)
        for at, (number, name) in enumerate(members):
            taken = number if number in new.names else name if name in new.names.values() else None
            if taken is not None:
                return line, f"none is registered: member {at}, {number} {name}: {taken} is taken"
            new.names[number] = name
        self.names = new.names
        return line, f"{len(members)} are registered"


class Seats:
    """Guests with seats, as `demo_seats` keeps them."""

    SHOW = "row 0 4294967295"

    def __init__(self, seats=()):
        self.seats = dict(seats)

    def copy(self):
        return Seats(self.seats)

    def pairs(self):
        return sorted(self.seats.items())

    def show(self):
        taken = sorted((seat, guest) for guest, seat in self.seats.items())
        return (", ".join(f"{guest} on {seat}" for seat, guest in taken) or "nobody") + "\n"

    def request(self, chance):
        guest, seat = f"g{chance.randrange(20)}", chance.randrange(20)
        kind = chance.choice(["take", "take", "move", "leave", "compact"])
        sits, has = {it: guest for guest, it in self.seats.items()}.get(seat), self.seats.get(guest)
        if kind == "compact":
            return kind, "FILE has a line for each guest"
        if kind == "leave":
            self.seats.pop(guest, None)
            return f"leave {guest}", "has none" if has is None else f"leaves {has}"
        if kind == "move" and sits is not None:
            return f"move {guest} {seat}", f"{guest} stays, {seat} is taken"
        self.seats[guest] = seat
        said = "seated" if has is None else f"seated, leaves {has}"
        if sits == guest:
            said = f"stays on {seat}"
        elif sits is not None:
            del self.seats[sits]
            said += f", {sits} has none"
        return f"{kind} {guest} {seat}", said
