"""Runs a bridge: `python3 -m ocpi_bridge CONFIG`, or registers it at a partner."""
import argparse
import asyncio
import resource
import sqlite3
import sys
from functools import partial
from getpass import getpass
from pathlib import Path

from .application import run
from .configuration import WrongConfiguration, read_configuration
from .logs import set_up_logs
from .ocpi.credentials import register
from .state import WrongState


def main() -> int:
    """Reads the command line and the configuration. Gives the status."""
    parser = argparse.ArgumentParser("ocpi_bridge", description="A node behind OCPI 2.2.1 and OCPP 1.6 and 2.0.1.")
    parser.add_argument("configuration", metavar="CONFIG", type=Path, help="the configuration, a JSON file")
    parser.add_argument("--json-logs", action="store_true", help="write logs as JSON, an object a line")
    parser.add_argument("--register", nargs=2, metavar=("PARTY", "URL"),
                        help="register at a partner, whose versions stand at URL, by its token, and end: standard "
                             "input has the token")
    parser.add_argument("--restored", action="store_true", help="the state and the store are those of a backup")
    parser.add_argument("--new-state", action="store_true", help="the state is new, and the store is not")
    words = parser.parse_args()
    most_files = resource.getrlimit(resource.RLIMIT_NOFILE)[1]
    resource.setrlimit(resource.RLIMIT_NOFILE, (most_files, most_files))
    set_up_logs(words.json_logs)
    read = partial(read_configuration, words.configuration, words.restored, words.new_state)
    try:
        configuration = read()
    except WrongConfiguration as wrong:
        print(wrong, file=sys.stderr)
        return 2
    try:
        if words.register is None:
            return asyncio.run(run(configuration, read))
        party, url = words.register
        token = getpass("token: ") if sys.stdin.isatty() else sys.stdin.readline().strip()
        return asyncio.run(register(configuration, party, url, token))
    except WrongState as wrong:
        print(wrong, file=sys.stderr)
        return 3
    except sqlite3.Error as fault:
        print(f"{configuration.state}: {fault}", file=sys.stderr)
        return 1


sys.exit(main())
