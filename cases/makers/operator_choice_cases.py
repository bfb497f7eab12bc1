"""Cases of the part `operator`: which of several EVSEs a command takes that names none. They are told as those of
`operator_cases`."""
from operator_case import OPERATOR, Case, location, moment, open_part, text


def open_site_out_of_order():
    """A site whose EVSEs do not stand in the order of their keys."""
    places = [location("LOC1", ["E3", "e1", "E4", "E2"]), location("LOC2", ["E0"])]
    site = {"currency": "EUR", "locations": places, "price": 0.25}
    open_part(text({"at": moment("10:00:00"), "party": OPERATOR, "providers": ["NL/TNM", "DE/EMP"], "site": site}))


def unclaimed_evses():
    c = Case("of several unclaimed EVSEs a start takes the first of the site line, and not the first by key")
    c.start(1, evse=None)
    c.started(1, 1, "E3")
    c.start(2, evse=None)
    c.started(2, 2, "e1")
    c.start(3, evse=None)
    c.started(3, 3, "E4")
    c.stored()
    c = Case("of several unclaimed EVSEs a reservation takes the first of the site line that is in service")
    c.service("E3", False)
    c.put("service", "E3", {})
    c.start(1, evse="E1")
    c.started(1, 1, "e1")
    c.reserve(2, "R1", None, "11:00:00")
    c.resulted(2, 1, 2, "ACCEPTED", [lambda: c.marked("R1", 2), lambda: c.reserved("R1", "E4", "11:00:00")])
    c.stored()


def reserved_evses():
    c = Case("of several EVSEs that are reserved for the token a start takes the one with the least key")
    c.reserve(1, "R1", "E4", "11:00:00")
    c.resulted(1, 1, 1, "ACCEPTED", [lambda: c.marked("R1", 1), lambda: c.reserved("R1", "E4", "11:00:00")])
    c.reserve(2, "R3", "E2", "11:00:00")
    c.resulted(3, 2, 2, "ACCEPTED", [lambda: c.marked("R3", 2), lambda: c.reserved("R3", "E2", "11:00:00")])
    c.reserve(3, "R2", "E3", "11:00:00")
    c.resulted(5, 3, 3, "ACCEPTED", [lambda: c.marked("R2", 3), lambda: c.reserved("R2", "E3", "11:00:00")])
    c.start(4, evse=None)
    c.started(7, 4, "E2", used="R3")
    c.start(5, evse=None)
    c.started(8, 5, "E3", used="R2")
    c.start(6, evse=None)
    c.started(9, 6, "E4", used="R1")
    c.start(7, evse=None)
    c.started(10, 7, "e1")
    c.stored()
    c = Case("a reservation that comes again keeps its EVSE, though one before it is unclaimed, and leaves it where it is out of service")
    c.reserve(1, "R1", "E2", "11:00:00")
    c.resulted(1, 1, 1, "ACCEPTED", [lambda: c.marked("R1", 1), lambda: c.reserved("R1", "E2", "11:00:00")])
    c.reserve(2, "R1", None, "12:00:00")
    c.resulted(3, 2, 2, "ACCEPTED", [lambda: c.marked("R1", 2), lambda: c.reserved("R1", "E2", "12:00:00")])
    c.service("E2", False)
    c.put("service", "E2", {})
    c.reserve(3, "R1", None, "13:00:00")
    c.resulted(5, 3, 3, "ACCEPTED", [lambda: c.marked("R1", 3), lambda: c.reserved("R1", "E3", "13:00:00")])
    c.stored()


def add_choice_cases():
    open_site_out_of_order()
    unclaimed_evses()
    reserved_evses()
