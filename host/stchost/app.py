"""Starts a plant: its engine in one thread, and in another what serves people and other machines."""
import argparse
import asyncio
import gc
import os
import selectors
import signal
import subprocess
import sys
import time
from . import Trouble, access
from .clock import Clock
from .devices import Device, Simulation
from .engine import Engine
from .modbus import ModbusServer, Remote
from .plant import PlantTable, load
from .session import explain, program
from .web import Web

KINDS: dict[str, type[Device]] = {"simulation": Simulation, "modbus": Remote}

def prefer(priority: int) -> None:
    """Lets this thread, and what it starts, run before the machine's other work. Where that isn't permitted it is told."""
    try:
        os.sched_setscheduler(0, os.SCHED_RR, os.sched_param(priority))
    except OSError as error:
        print(f"priority {priority}: {error}", file=sys.stderr)

async def serve(engine: Engine, scans: asyncio.Task[None]) -> None:
    """Serves the page and Modbus until the engine has ended, and tells on the terminal what becomes of the program."""
    plant, notice = engine.plant, "running"
    while not engine.status and not scans.done():  # a long journal takes its time
        await asyncio.sleep(0.02)
    if not scans.done():
        await (page := Web(engine, access.Gate(access.load(plant.tokens)))).start()
        modbus = f", Modbus at port {await ModbusServer(plant.server, engine).start()}" if plant.server else ""
        print(f"{plant.name}: http://{plant.page.host}:{page.port}/{modbus}", flush=True)
    while not scans.done():
        if engine.status["notice"] != notice:
            notice = engine.status["notice"]
            print(f"{plant.name}: {notice}", file=sys.stderr, flush=True)
        await asyncio.sleep(0.2)

async def main_loop(plant: PlantTable) -> None:
    """Runs until a signal comes, or the engine can't go on."""
    there = asyncio.SelectorEventLoop(selectors.SelectSelector())  # `epoll` would round times up to milliseconds
    engine = Engine(plant, Clock(), lambda types: [KINDS[file.kind](file, plant, types) for file in plant.device])

    def scan() -> None:
        if plant.priority:
            prefer(plant.priority + 1)
        there.run_until_complete(engine.run())

    for number in (signal.SIGINT, signal.SIGTERM):
        asyncio.get_running_loop().add_signal_handler(number, there.call_soon_threadsafe, engine.stop)
    scans = asyncio.create_task(asyncio.to_thread(scan))
    try:
        await serve(engine, scans)
    finally:
        there.call_soon_threadsafe(engine.stop)
        await scans

def run(plant: PlantTable, fresh: bool) -> None:
    """Runs a plant as its only host, from its journal or anew."""
    plant.state.mkdir(mode=0o700, parents=True, exist_ok=True)
    with (plant.state / "lock").open("w") as lock:
        os.set_inheritable(lock.fileno(), True)  # the journal's writer holds it too, as long as there is something to write
        if subprocess.run(["flock", "-w", "5", str(lock.fileno())], pass_fds=[lock.fileno()], check=False).returncode:
            raise Trouble("another host runs this plant")
        access.make(plant.tokens)
        subprocess.run([program(), "--version"], check=True, stdout=subprocess.DEVNULL)  # builds it, where it isn't built
        journal = plant.state / "journal"
        if fresh and journal.exists():
            journal.rename(journal.with_name(f"journal-{time.strftime('%Y%m%d-%H%M%S')}"))
        if plant.priority:
            prefer(plant.priority)
        sys.setswitchinterval(0.00002)  # the thread of scans waits no longer than this for the other one
        explain("fault M")  # its page is read now, not at a fault
        gc.freeze()
        asyncio.run(main_loop(plant))

def main() -> None:
    parser = argparse.ArgumentParser("host/run", description="Runs a plant: its program, its page, its connections.")
    parser.add_argument("plant", help="the plant's file, with or without .toml")
    parser.add_argument("--fresh", action="store_true", help="loads the program anew; the journal is set aside")
    parser.add_argument("--check", action="store_true", help="reads the plant's file and stops")
    words = parser.parse_args()
    plant = load(words.plant)
    if not words.check:
        run(plant, words.fresh)
