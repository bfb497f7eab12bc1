"""The pages in a browser: what a person sees there, asks for, and is asked and told."""
import asyncio
import sqlite3
import subprocess
import tempfile
import time
import unittest
from contextlib import closing
from pathlib import Path

from .browser import CHROMIUM, Browser
from .running import REPOSITORY, RunningBridge, charge_point, eventually, operator, partner, provider

SETUP = [operator("BE/BEC", ["E1", "E2"], max_voltage=230, max_amperage=32), provider("NL/TNM")]


def row_with(table: str, *words: str) -> str:
    """An expression of the page: whether a row of a table has all these words."""
    tests = " && ".join(f"row.innerText.includes({word!r})" for word in words)
    return f"Array.from(document.getElementById({table!r}).rows).some((row) => {tests})"


def press(words: str, label: str = "") -> str:
    """An expression of the page: presses the button that has these words, and this label, where there is one."""
    return (f"(() => {{ const found = Array.from(document.querySelectorAll('button')).find((one) => "
            f"one.textContent === {words!r} && (one.getAttribute('aria-label') ?? '').includes({label!r}) && "
            "one.checkVisibility()); found?.click(); return Boolean(found); })()")


def enter(form: str, **values: str) -> str:
    """An expression of the page: enters values into a form."""
    entered = " ".join(f"elements[{name!r}].value = {value!r}; tell(elements[{name!r}]);"
                       for name, value in values.items())
    return (f"(() => {{ const {{ elements }} = document.getElementById({form!r}); const tell = (field) => "
            "['input', 'change'].forEach((name) => field.dispatchEvent(new Event(name, { bubbles: true })));"
            f"{entered} return true; }})()")


def said(*words: str) -> str:
    """An expression of the page: whether the message has all these words."""
    return " && ".join(f"document.getElementById('message').textContent.includes({word!r})" for word in words)


@unittest.skipUnless(CHROMIUM, "there is no chromium: apt install chromium")
class PageTest(unittest.IsolatedAsyncioTestCase):
    async def asyncSetUp(self) -> None:
        folder = tempfile.TemporaryDirectory()
        self.addCleanup(folder.cleanup)
        self.folder = Path(folder.name)
        self.operator = RunningBridge(self.folder / "operator", SETUP, "BE/BEC", [],
                                      [charge_point("CP1", ["E1"], "a-password"), charge_point("CP2", ["E2"])])
        self.provider = RunningBridge(self.folder / "provider", SETUP, "NL/TNM", [])
        self.operator.configuration["partners"] = [
            partner("NL/TNM", "node", "token-1", "token-2", f"{self.provider.ocpi_url}/ocpi/versions")]
        self.provider.configuration["partners"] = [
            partner("BE/BEC", "node", "token-2", "token-1", f"{self.operator.ocpi_url}/ocpi/versions")]
        for bridge in (self.operator, self.provider):
            self.addCleanup(bridge.kill)
        await asyncio.gather(self.operator.start(), self.provider.start())
        self.charging = subprocess.Popen(
            [REPOSITORY / "bridge" / "charge_point", self.operator.ocpp_url, "CP1", "a-password", "--auto"],
            stdin=subprocess.PIPE, stdout=subprocess.DEVNULL)
        self.addCleanup(self.charging.communicate)
        self.addCleanup(self.charging.kill)
        await eventually(self.is_connected, "the charge point is connected", within=180)
        self.browser = Browser()
        await self.browser.start()
        self.addAsyncCleanup(self.browser.stop)

    async def is_connected(self) -> bool:
        return bool((await self.operator.admin_get("/charge_points"))[0]["connected"])

    async def open(self, bridge: RunningBridge) -> None:
        await self.browser.open(f"{bridge.admin_url}/")
        await self.browser.until("document.getElementById('connection').textContent === 'live'")

    async def save_token(self, uid: str) -> None:
        """Fills in the form of the provider's page."""
        await self.browser.evaluate(enter("token", uid=uid, contract_id="NL-TNM-000001", issuer="TNM"))
        await self.browser.until(press("Save"))
        await self.browser.until(row_with("tokens", uid, "RFID", "NL-TNM-000001", "TNM", "ALWAYS", "yes"))

    def tell(self, line: str) -> None:
        """Has the charge point do something."""
        assert self.charging.stdin is not None
        self.charging.stdin.write(line.encode() + b"\n")
        self.charging.stdin.flush()

    async def refuse(self, press_button: str, question: str) -> None:
        """Presses a button, and says no to its question. Sees that it was asked, and that nothing is told."""
        self.browser.says_yes = False
        await self.browser.evaluate("document.getElementById('message').textContent = 'nothing'")
        await self.browser.until(press_button)
        self.assertIn(question, self.browser.questions[-1])
        await self.browser.until(said("nothing"))
        self.browser.says_yes = True

    async def charge(self) -> None:
        """12 kWh, of which the car is full, at 0.25 EUR a kWh. Then the meter tells what cannot be true."""
        browser = self.browser
        await self.open(self.provider)
        await self.save_token("<b>AA01</b>")
        await browser.until(press("Start"))
        await browser.until(row_with("sessions", "E1", "BE/BEC", "<b>AA01</b>", "active"))
        await browser.until(row_with("commands", "start session", "E1", "accepted", ":"))
        await browser.until(said("start session, E1: accepted"))
        await browser.until(row_with("sessions", "active", "12.0000 kWh", "3.0000 EUR"))
        self.tell("meter 900000000")
        await browser.until(press("Stop"))
        await browser.until(row_with("sessions", "completed", "12.0000 kWh", "3.0000 EUR"))

    async def test_a_charge_from_the_providers_page_to_the_operators(self) -> None:
        browser = self.browser
        await self.charge()
        await browser.until(said("stop session", ": accepted"))
        await browser.until(row_with("cdrs", "E1", "BE/BEC", "<b>AA01</b>", "bill", "12.0000 kWh", "3.0000 EUR"))
        await browser.until(row_with("owed", "BE/BEC", "3.0000 EUR"))

        await self.open(self.operator)
        await browser.until(row_with("evses", "E1", "available"))
        await browser.until(row_with("warnings", "E1", "a reading of 900012.0000 kWh, which cannot be true"))
        await browser.until(row_with("sessions", "E1", "NL/TNM", "completed"))
        await self.refuse(press("Take back"), "Take back the bill of 3.0000 EUR?")
        await browser.until(press("Take back"))
        await browser.until(row_with("cdrs", "credit", "-3.0000 EUR"))
        await self.refuse(press("Take out of service"), "Take E1 out of service?")
        await browser.until(press("Take out of service"))
        await browser.until(row_with("evses", "E1", "inoperative"))
        await browser.until(row_with("charge_points", "CP1", "E1", "out of service"))
        await browser.until(press("Put into service"))
        await browser.until(row_with("evses", "E1", "available"))

        await self.open(self.provider)
        await browser.until(row_with("owed", "BE/BEC", "0.0000 EUR"))
        self.assertEqual(browser.faults, [])

    async def test_what_a_page_tells_of_sessions_and_bills(self) -> None:
        browser = self.browser
        await self.charge()
        session = (await self.provider.admin_get("/sessions"))[0]
        bill = (await self.provider.admin_get("/cdrs"))[0]
        told = ("0:00 h", "12.0000 kWh", "0.2500 EUR/kWh", "3.0000 EUR")
        await browser.until(row_with("sessions", session["id"], *told))
        await browser.until(row_with("cdrs", bill["id"], session["id"], *told))
        await browser.until("document.getElementById('zone').textContent === 'UTC'")
        await browser.until(row_with("totals", "EUR", "1", "0", "12.0000 kWh", "3.0000 EUR"))
        await browser.evaluate(enter("look", day="2024-01-01"))
        await browser.until(row_with("totals", "none"))
        await browser.call("Emulation.setFocusEmulationEnabled", enabled=True)
        await browser.call("Browser.grantPermissions", permissions=["clipboardReadWrite", "clipboardSanitizedWrite"])
        await browser.until(press("Copy", bill["id"]))
        await browser.until(said(f"{bill['id']} is copied"))
        await self.see_filter(session["id"])
        self.assertEqual(browser.faults, [])

    async def see_filter(self, session_id: str) -> None:
        """A filter looks at all rows, also at those that are older than the newest 50."""
        browser = self.browser
        await self.provider.admin_post("/tokens", {
            "country_code": "NL", "party_id": "TNM", "uid": "OTHER", "type": "RFID", "contract_id": "C",
            "issuer": "TNM", "valid": True, "whitelist": "ALWAYS", "last_updated": "2025-01-01T09:00:00Z"})
        with closing(sqlite3.connect(self.provider.folder / "bridge.db", timeout=30)) as state, state:
            for number in range(60):
                state.execute(
                    """INSERT INTO object_of SELECT module, party, ?1, token_type, partner, last_updated + 1, status,
                        evse_uid, json_set(body, '$.id', ?1) FROM object_of WHERE module = 'sessions' LIMIT 1""",
                    (f"LATER{number}",))
        await browser.until(f"{row_with('tokens', 'OTHER')} && {row_with('sessions', 'LATER')}")
        await browser.until(f"!{row_with('sessions', session_id)}")
        await browser.evaluate(enter("look", filter=session_id[-12:]))
        await browser.until(row_with("sessions", session_id))
        await browser.until(f"{row_with('tokens', 'none')} && !{row_with('sessions', 'LATER')}")
        await browser.evaluate(enter("look", filter=""))
        await browser.until(f"{row_with('tokens', 'OTHER')} && {row_with('sessions', 'LATER')}")

    async def test_charge_points_and_partners(self) -> None:
        browser = self.browser
        await self.open(self.operator)
        await browser.until(row_with("charge_points", "CP1", "connected", "20", "1", "E1", "Available", "in service"))
        await browser.until(row_with("charge_points", "CP2", "away", "none", "E2"))
        await browser.until(row_with("partners", "NL/TNM", "node", "answering", "0", "/ocpi/versions"))
        self.tell("fault")
        await browser.until(row_with("charge_points", "CP1", "Faulted", "OtherError", "out of service"))
        await self.refuse(press("Fault", "E1"), "End what stands at E1 by its last reading?")
        await browser.until(press("Fault", "E1"))
        await browser.until(said("What stood at E1 has ended"))
        copy = self.folder / "copy"
        await browser.evaluate(enter("backup", to=str(copy)))
        await browser.until(press("Back up"))
        await browser.until(said("The store and the state were copied to"))
        self.assertEqual({"store.db", "state.db"}, {file.name for file in copy.iterdir()})
        self.provider.kill()
        await self.open(self.operator)
        self.assertEqual(browser.faults, [])

    async def test_every_order_has_a_button_and_a_message_that_tells_its_outcome(self) -> None:
        browser = self.browser
        await self.open(self.provider)
        await browser.evaluate(enter("token", uid="AA01", contract_id="NL-TNM-000001", issuer="TNM"))
        await browser.until(press("Save"))
        await browser.until(row_with("tokens", "AA01"))
        await browser.until(press("Reserve"))
        await browser.until(said("reserve now, E1: accepted"))
        await browser.until(row_with("commands", "reserve now", "E1", "accepted"))
        await browser.until(press("Cancel"))
        await browser.until(said("cancel reservation", ": accepted"))
        await browser.until(press("Unlock"))
        await browser.until(said("unlock connector, E1: accepted"))
        await browser.evaluate(enter("start", evse="E2"))
        await browser.until(press("Start"))
        # The charge point of E2 is away, so its operator rejects at once, or nothing is told until the end.
        await browser.until(said("E2"))
        self.assertEqual(browser.faults, [])

    async def seconds_until(self, expression: str) -> float:
        """Waits until the page has something, and says how long that took."""
        begun = time.monotonic()
        await self.browser.until(expression)
        return time.monotonic() - begun

    async def test_a_free_evse_its_price_and_who_takes_it(self) -> None:
        browser = self.browser
        offer = ("E1", "BE/BEC", "Korenmarkt 1, Gent", "1 (IEC_62196_T2)", "22.08 kW", "0.2500 EUR/kWh")
        await self.open(self.provider)
        await browser.until(row_with("offers", *offer, "available", "Choose"))
        await browser.until(row_with("offers", "E2", "outoforder"))
        await browser.until(f"!{row_with('offers', 'E2', 'Choose')}")
        await browser.evaluate(enter("start", evse="E2"))
        await browser.until(press("Choose", "E1"))
        await browser.until("document.getElementById('start').elements.evse.value === 'E1'")
        await browser.until("document.getElementById('start').elements.evse.selectedOptions[0].text"
                            ".includes('available')")
        self.tell("plug")
        self.assertLess(await self.seconds_until(row_with("offers", *offer, "blocked")), 2)
        self.tell("unplug")
        self.assertLess(await self.seconds_until(row_with("offers", *offer, "available", "Choose")), 2)
        self.assertEqual(browser.faults, [])
        held, = await self.provider.admin_get("/locations")
        told, = await self.operator.admin_get("/locations")
        self.assertEqual(told, held)
        self.assertEqual(await self.operator.admin_get("/tariffs"), await self.provider.admin_get("/tariffs"))

    async def test_a_narrow_window(self) -> None:
        for bridge in (self.provider, self.operator):
            await self.open(bridge)
            await self.browser.picture(360, 800)
            width = await self.browser.evaluate("document.documentElement.scrollWidth")
            self.assertLessEqual(width, 360, bridge.party)


if __name__ == "__main__":
    unittest.main()
