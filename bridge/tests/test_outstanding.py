"""What is outstanding at a node, as its packets tell, and the text of the metrics."""
import dataclasses
import tempfile
import unittest
from pathlib import Path
from typing import cast

from ocpi_bridge.admin.outstanding import Outstanding
from ocpi_bridge.events import Outcome, Packet
from ocpi_bridge.json_text import Members
from ocpi_bridge.metrics import Metrics
from ocpi_bridge.ocpi.objects import Objects
from ocpi_bridge.records import Body, Event
from ocpi_bridge.state import State

from .test_admin import TOKEN

MOMENT = "2025-01-01T10:00:00Z"


class OutstandingTest(unittest.TestCase):
    def setUp(self) -> None:
        folder = tempfile.TemporaryDirectory()
        self.addCleanup(folder.cleanup)
        state = State(Path(folder.name) / "state.db")
        self.addCleanup(state.close)
        self.objects = Objects(state)
        self.is_open = True
        self.outstanding = Outstanding(state, self.objects, lambda: self.is_open)

    def note(self, event: Members, *packets: Packet) -> None:
        outcome = Outcome(cast(Event, {**event, "at": MOMENT}), {"done": "stepped", "packets": len(packets)}, packets)
        self.objects.note(outcome)
        self.outstanding.note(outcome)

    def deliver(self, sender: str, request: int, kind: str, body: Members, status: int | None = None) -> None:
        """A packet that comes, and is answered with a status where one is given."""
        packet = Packet(sender, "NL/TNM", 1, request, kind, cast(Body, body))
        ack = Packet("NL/TNM", sender, 1, request, "ack", {"status_code": status or 0, "timestamp": MOMENT})
        answers = [] if status is None else [ack]
        self.note({"event": "deliver", "packet": packet.members()}, *answers)

    def test_a_push_waits_until_its_own_number_is_acknowledged(self) -> None:
        for request, receiver in ((1, "NL/TNM"), (2, "NL/TNM"), (3, "DE/XXX")):
            session: Body = {"country_code": "BE", "party_id": "BEC", "id": "S1", "evse_uid": "E1", "status": "ACTIVE",
                       "last_updated": MOMENT}
            self.note({"event": "tick"}, Packet("BE/BEC", receiver, 1, request, "put_session", session))
        self.assertEqual(self.outstanding.pushes(), 2)
        self.deliver("nl/tnm", 1, "ack", {"status_code": 1000})
        self.deliver("NL/TNM", 2, "ack", {"status_code": 2001})
        self.deliver("NL/TNM", 3, "ack", {"status_code": 1000})
        self.assertEqual(self.outstanding.pushes(), 2)
        self.deliver("nl/tnm", 2, "ack", {"status_code": 1000})
        self.assertEqual(self.outstanding.pushes(), 1)

    def test_what_a_first_tick_does_not_send_again_was_answered(self) -> None:
        order = Packet("NL/TNM", "BE/BEC", 1, 7, "stop_session", {"session_id": "S", "response_url": "U"})
        token = Packet("NL/TNM", "BE/BEC", 2, 8, "put_token", cast(Body, TOKEN))
        self.note({"event": "submit"}, order, dataclasses.replace(order, request=9), token)
        self.is_open = False
        self.note({"event": "tick"}, dataclasses.replace(order, serial=3))
        self.assertEqual((self.outstanding.pushes(), self.outstanding.open_commands()), (0, 1))

    def test_a_record_counts_once_and_a_credit_takes_it_back(self) -> None:
        bill = {"country_code": "BE", "party_id": "BEC", "id": "C1", "currency": "EUR",
                "total_cost": {"excl_vat": "3.08649"}, "last_updated": MOMENT}
        for status in (1000, 1000, 2001):
            self.deliver("BE/BEC", 1, "post_cdr", bill, status)
        self.deliver("BE/BEC", 2, "post_cdr", {**bill, "id": "C2", "total_cost": {"excl_vat": 2}}, 2001)
        self.assertEqual(self.outstanding.owed(), [{"operator": "BE/BEC", "currency": "EUR", "amount": "3.0864"}])
        self.deliver("BE/BEC", 1, "post_cdr", {**bill, "id": "C3"}, 1000)
        self.deliver("be/bec", 3, "post_cdr", {**bill, "id": "c1-C", "total_cost": {"excl_vat": "-4.5"}}, 1000)
        self.assertEqual(self.outstanding.owed()[0]["amount"], "-1.4136")

    def test_a_command_is_open_until_a_refusal_or_a_result(self) -> None:
        for request in (7, 8, 9):
            url = f"https://node.invalid/NL/TNM/{request}"
            self.note({"event": "submit"},
                      Packet("NL/TNM", "BE/BEC", 1, request, "stop_session", {"session_id": "S", "response_url": url}))
        for request, result in ((7, "ACCEPTED"), (8, "REJECTED")):
            data = {"result": result, "timeout": 30}
            self.deliver("BE/BEC", request, "command_response", {"status_code": 1000, "data": data})
        self.assertEqual(self.outstanding.open_commands(), 2)
        failed = {"response_url": "https://node.invalid/NL/TNM/7", "result": "FAILED"}
        self.deliver("BE/BEC", 1, "command_result", failed, 1000)
        self.deliver("BE/BEC", 9, "command_response", {"status_code": 2003})
        self.assertEqual(self.outstanding.open_commands(), 0)
        self.assertEqual([(command["number"], command["response"], command["result"])
                          for command in self.outstanding.commands()],
                         [(9, "2003", None), (8, "REJECTED", None), (7, "ACCEPTED", "FAILED")])


class MetricsTest(unittest.TestCase):
    def test_the_text_is_that_of_prometheus(self) -> None:
        """Buckets count all durations up to their bound; quotes, backslashes and line ends of labels are escaped."""
        metrics = Metrics()
        metrics.count("ocpi_http_requests_total", partner='a"\\\n', direction="in", status="200")
        metrics.count("ocpi_http_requests_total", 2, partner='a"\\\n', direction="in", status="200")
        for seconds in (0.25, 0.3, 20.0):
            metrics.observe("ocpi_line_seconds", seconds)
        metrics.gauge("ocpi_open_commands", lambda: 4)
        lines = metrics.text().splitlines()
        for line in ('ocpi_http_requests_total{direction="in",partner="a\\"\\\\\\n",status="200"} 3.0',
                     'ocpi_line_seconds_bucket{le="0.1"} 0.0', 'ocpi_line_seconds_bucket{le="0.25"} 1.0',
                     'ocpi_line_seconds_bucket{le="0.5"} 2.0', 'ocpi_line_seconds_bucket{le="+Inf"} 3.0',
                     "ocpi_line_seconds_sum 20.55", "ocpi_line_seconds_count 3.0", "# TYPE ocpi_line_seconds histogram",
                     "ocpi_node_restarts_total 0.0", "ocpi_open_commands 4.0"):
            self.assertIn(line, lines)


if __name__ == "__main__":
    unittest.main()
