"""Carries out the trial of the promise for each seed that is given, one after another, with a line for each."""
import asyncio
import signal
import sys

from .trial import Report, carry_out


async def carried_out(seed: int) -> Report:
    """Carries out a trial, which a signal ends together with all that it started."""
    task = asyncio.create_task(carry_out(seed))
    asyncio.get_running_loop().add_signal_handler(signal.SIGTERM, task.cancel)
    return await task


def main() -> int:
    is_kept = True
    for seed in map(int, sys.argv[1:]):
        report = asyncio.run(carried_out(seed))
        said = "broken" if report.faults else "kept"
        print(f"seed {seed}: {said}; {report.seconds:.1f} s; {report.words}", flush=True)
        for fault in report.faults:
            print(f"  {fault}", flush=True)
        is_kept = is_kept and not report.faults
    return 0 if is_kept else 1


sys.exit(main())
