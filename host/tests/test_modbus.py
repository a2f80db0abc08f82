"""Modbus TCP both ways: pymodbus and mbpoll as clients of the host, and a server of pymodbus as its remote device."""
import asyncio
import contextlib
import re
import socket
import struct
import subprocess
import threading
import time
import pytest
from conftest import BLOCKS, FILE, Host, ended, free_port, needs, wait_for
from stchost.plant import MapTable
from stchost.values import pack, unpack

pytestmark = needs("aiohttp", "pymodbus", "serial_asyncio")

def client_of(host: Host):
    from pymodbus.client import ModbusTcpClient

    return ModbusTcpClient("127.0.0.1", port=host.modbus, timeout=20)

@pytest.mark.parametrize("form, words, order, number, registers", [
    ("INT16", "big", "big", -2, [0xFFFE]), ("INT16", "big", "big", 70_000, [0x7FFF]),
    ("UINT16", "big", "little", 0x1234, [0x3412]),
    ("UINT32", "big", "big", 0x12345678, [0x1234, 0x5678]), ("UINT32", "little", "big", 0x12345678, [0x5678, 0x1234]),
    ("INT32", "big", "little", 0x12345678, [0x3412, 0x7856]), ("INT32", "little", "little", -2, [0xFEFF, 0xFFFF])])
def test_numbers_in_registers(form, words, order, number: int, registers: list[int]) -> None:
    register = MapTable("", "holding", 0, form, words, order)
    assert pack(register, "DINT", number) == registers
    assert unpack(register, "DINT", registers) == {70_000: 0x7FFF}.get(number, number)  # held at the form's end

def test_pymodbus_reads_and_writes_what_is_mapped(host: Host) -> None:
    with client_of(host) as client:
        assert client.read_holding_registers(0, 7).registers == [7, 0xFFFE, 0xEE90, 90_000 & 0xFFFF, 90_000 >> 16, 0xFFFB, 10]
        assert client.write_coil(0, True).function_code == 5
        wait_for(lambda: client.read_discrete_inputs(0, 1).bits[0])
        assert client.write_coils(0, [False]).function_code == 15
        wait_for(lambda: not client.read_discrete_inputs(0, 1).bits[0])
        assert client.write_registers(0, [71, 0xFFFF, 0xFFFE]).function_code == 16
        wait_for(lambda: client.read_holding_registers(0, 1).registers == [71])
        wait_for(lambda: client.read_input_registers(0, 2).registers == [0xFFFF, 0xFFFE])
        assert host.console("force Main.Q 3").startswith("ok")
        for answer, code in [(client.write_register(6, 4), 4), (client.write_register(1, 4), 2),
                             (client.write_register(40, 4), 2), (client.write_register(5, 300), 3),
                             (client.read_holding_registers(5, 9), 2), (client.read_coils(3, 1), 2),
                             (client.mask_write_register(0, 1, 1), 1)]:
            assert answer.isError() and answer.exception_code == code
        assert "modbus 127.0.0.1 write Main.Q 4 refused O4" in host.console("log")
        assert client.read_discrete_inputs(8, 1).bits[0]
        host.console("hold")
        wait_for(lambda: not client.read_discrete_inputs(8, 1).bits[0])

@needs("mbpoll")
def test_mbpoll_reads_and_writes_what_is_mapped(host: Host) -> None:
    def mbpoll(*words: str) -> str:
        command = ["mbpoll", "-m", "tcp", "-p", str(host.modbus), "-0", "-1", "-o", "10", "127.0.0.1", *words]
        return subprocess.run(command, stdout=subprocess.PIPE, stderr=subprocess.STDOUT, text=True, timeout=60).stdout

    assert re.search(r"\[0\]:\s+-70000", mbpoll("-t", "3:int", "-B", "-r", "0"))
    assert re.search(r"\[3\]:\s+90000", mbpoll("-t", "4:int", "-r", "3"))
    assert "Written 1 references" in mbpoll("-t", "4", "-r", "0", "75")
    assert "Written 1 references" in mbpoll("-t", "0", "-r", "0", "1")
    wait_for(lambda: re.search(r"\[0\]:\s+1\s", mbpoll("-t", "1", "-r", "0")))
    wait_for(lambda: re.search(r"\[0\]:\s+75", mbpoll("-t", "4", "-r", "0")))
    assert "Illegal data address" in mbpoll("-t", "4", "-r", "50")

def test_who_may_by_address_and_function(make_host) -> None:
    none = make_host(file=FILE.replace('"127.0.0.1", functions', '"10.0.0.0/8", functions'))
    with socket.create_connection(("127.0.0.1", none.modbus)) as made:
        assert made.recv(1) == b""
    with client_of(make_host(file=FILE.replace(", functions = [1, 2, 3, 4, 5, 6, 15, 16]", ""))) as client:
        assert not client.read_holding_registers(0, 1).isError()
        assert client.write_register(0, 1).exception_code == 1

def test_bad_frames_half_open_and_slow_clients_delay_no_scan(make_host) -> None:
    host = make_host(file=FILE.replace("idle = 30", "idle = 2").replace("cycle = 10", "cycle = 20"))

    def connected() -> socket.socket:
        return socket.create_connection(("127.0.0.1", host.modbus), timeout=30)

    def talk(data: bytes) -> bytes:
        with connected() as made:
            made.sendall(data)
            made.shutdown(socket.SHUT_WR)
            return b"".join(iter(lambda: made.recv(4096), b""))

    with host.undelayed():
        for request, answer in [
                (b"GET / HTTP/1.1\r\n\r\n", b""), (struct.pack(">HHHB", 1, 0, 60_000, 1), b""),
                (struct.pack(">HHHBB", 1, 0, 2, 1, 3), struct.pack(">HHHBBB", 1, 0, 3, 1, 0x83, 3)),
                (struct.pack(">HHHBBHHB", 7, 0, 7, 1, 16, 0, 123, 246), struct.pack(">HHHBBB", 7, 0, 3, 1, 0x90, 3))]:
            assert talk(request) == answer
        for function in {*range(256)} - {6}:
            said = talk(struct.pack(">HHHBBHH", 1, 0, 6, 1, function, 0, 0xFFFF))
            assert said[7] & 0x80 and said[8] == (3 if function in (1, 2, 3, 4, 5, 15, 16) else 1), function
        held = [connected() for _ in range(12)]  # half-open: eight of them above the limit
        wait_for(lambda: sum(map(ended, held)) == 12)
        slow = connected()
        slow.setblocking(False)
        request, end = struct.pack(">HHHBBHH", 1, 0, 6, 1, 3, 0, 7) * 200, time.monotonic() + 2
        while time.monotonic() < end and not ended(slow):
            with contextlib.suppress(OSError):
                slow.send(request)
            time.sleep(0.001)

class Rack:
    """A remote device: a server of pymodbus in a thread, which can be made slow."""
    def __init__(self) -> None:
        from pymodbus.datastore import ModbusSequentialDataBlock, ModbusServerContext, ModbusSlaveContext
        from pymodbus.server import StartAsyncTcpServer

        rack, self.port, self.pause = self, free_port(), 0.0

        class Block(ModbusSequentialDataBlock):
            def getValues(self, address, count=1):
                time.sleep(rack.pause)
                return super().getValues(address, count)

        self.discrete, self.inputs, self.coils, self.outputs = (Block(1, [0] * 20) for _ in range(4))
        slave = ModbusSlaveContext(di=self.discrete, co=self.coils, ir=self.inputs, hr=self.outputs)
        server = StartAsyncTcpServer(context=ModbusServerContext(slaves=slave), address=("127.0.0.1", self.port))
        threading.Thread(target=asyncio.run, args=(server,), daemon=True).start()

RACK = FILE.partition("device =")[0].replace("cycle = 10", "cycle = 50") + """
device = [{name = "rack", kind = "modbus", port = RACK_PORT, share = 50}]
input = [{path = "Main.Go", device = "rack", table = "discrete"},
         {path = "Main.Count", device = "rack", table = "input", address = 1, words = "little"},
         {path = "Main.Raw", device = "rack", table = "input", quality = "Main.Raw_Ok"}]
output = [{path = "Main.Delay.IN", device = "rack", table = "coil", address = 3, fault = "FALSE"},
          {path = "Main.Speed", device = "rack", table = "holding", fault = "-1"},
          {path = "Main.Total", device = "rack", table = "holding", address = 1, fault = "0"}]
"""

def test_a_remote_device_is_polled_and_written_and_waited_for_no_longer_than_its_share(make_host) -> None:
    rack = Rack()
    rack.inputs.setValues(1, [500, 0x5678, 0x0001])
    host = make_host(BLOCKS, RACK.replace("RACK_PORT", str(rack.port)))
    wait_for(lambda: rack.outputs.getValues(1, 3) == [501, 0x0001, 0x5679])
    rack.discrete.setValues(1, [1])
    wait_for(lambda: rack.coils.getValues(4, 1) == [1])
    client = host.client()
    wait_for(lambda: client.line("show Main.Raw_Ok") == "Main.Raw_Ok = TRUE")
    rack.pause = 0.2
    before = client.until(lambda status: status["good"]["Main.Raw"] is False)
    assert before["devices"][0]["behind"] > 0
    after = client.until(lambda status: status["cycles"] >= before["cycles"] + 50)
    assert after["moment"] - before["moment"] < 50 * 50 * 3, "a slow device holds up no scan"
    wait_for(lambda: client.lines("show Main.Raw", "show Main.Raw_Ok") == ["Main.Raw = 500", "Main.Raw_Ok = FALSE"])
    rack.pause = 0.0
    client.until(lambda status: status["good"]["Main.Raw"] and status["devices"][0]["good"])
    host.stop()
    wait_for(lambda: rack.outputs.getValues(1, 3) == [0xFFFF, 0, 0])  # the values for a fault, as the host ends
