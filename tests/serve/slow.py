"""Connects slow clients by the hundred, and a quick one beside them.

    slow.py PORT PROGRAM FOLDER

PORT serves FOLDER by PROGRAM. A hundred clients send a request at a byte a second, and then another one at once. A
hundred read a file of 12 MiB at 300 KiB a second. Each has to get its answers, byte for byte. Meanwhile the quick
client asks ten times a second over a new connection each time: half of its answers have to come within HALF seconds,
and all within ALL. Prints what is wrong; the status is 0 if nothing is.
"""
import asyncio
import os
import socket
import statistics
import sys
import time

CLIENTS = 100
LENGTH, RATE = 12 << 20, 300 << 10
HALF, ALL = 0.5, 5
FIRST = b"GET /hello.txt HTTP/1.1\r\nHost: a\r\n\r\n"
LAST = b"GET /hello.txt HTTP/1.1\r\nHost: a\r\nConnection: close\r\n\r\n"
wrong = 0


def expect(holds, what):
    global wrong
    if not holds:
        wrong += 1
        print(f"wrong: {what}")


async def connect(port):
    # (the system then holds little of what isn't read, and the server waits for the client)
    connection = socket.socket()
    connection.setsockopt(socket.SOL_SOCKET, socket.SO_RCVBUF, 1 << 17)
    connection.setblocking(False)
    await asyncio.get_running_loop().sock_connect(connection, ("127.0.0.1", port))
    return await asyncio.open_connection(sock=connection, limit=1 << 14)


async def head(reader):
    """The status and the length of the response that comes."""
    lines = (await reader.readuntil(b"\r\n\r\n")).decode().split("\r\n")
    length = next(line.split(": ")[1] for line in lines if line.lower().startswith("content-length: "))
    return int(lines[0].split(" ")[1]), int(length)


async def answer(reader):
    status, length = await head(reader)
    return status, await reader.readexactly(length)


async def sends_slowly(port, content):
    reader, writer = await connect(port)
    for byte in FIRST:
        writer.write(bytes([byte]))
        await asyncio.sleep(1)
    expect(await answer(reader) == (200, content), "the answer to a request at a byte a second")
    writer.write(LAST)
    expect(await answer(reader) == (200, content), "the next answer")
    expect(await reader.read() == b"", "the end of a connection")
    writer.close()


async def reads_slowly(port, content):
    reader, writer = await connect(port)
    writer.write(b"GET /slow.bin HTTP/1.1\r\nHost: a\r\nConnection: close\r\n\r\n")
    status, length = await head(reader)
    expect((status, length) == (200, LENGTH), "the head for a client that reads slowly")
    begun, came = time.monotonic(), 0
    while piece := await reader.read(RATE // 10):
        expect(content[came : came + len(piece)] == piece, "the bytes for a client that reads slowly")
        came += len(piece)
        await asyncio.sleep(begun + came / RATE - time.monotonic())
    expect(came == LENGTH, "the length for a client that reads slowly")
    writer.close()


async def asks_quickly(port, content, seconds):
    while True:
        begun = time.monotonic()
        reader, writer = await asyncio.open_connection("127.0.0.1", port)
        writer.write(LAST)
        expect(await answer(reader) == (200, content), "the answer for a quick client")
        writer.close()
        seconds.append(time.monotonic() - begun)
        await asyncio.sleep(0.1)


def memory_of(program):
    """The memory of the processes that run a program, in KiB: what they share is counted once."""
    sizes = []
    for number in filter(str.isdigit, os.listdir("/proc")):
        try:
            if os.readlink(f"/proc/{number}/exe") == program:
                with open(f"/proc/{number}/smaps_rollup") as file:
                    sizes.append(next(int(line.split()[1]) for line in file if line.startswith("Pss:")))
        except OSError:
            continue
    return sizes


async def main():
    port, program, folder = int(sys.argv[1]), os.path.realpath(sys.argv[2]), sys.argv[3]
    content = bytes(i * i % 251 for i in range(LENGTH >> 4)) * 16
    with open(f"{folder}/slow.bin", "wb") as file:
        file.write(content)
    with open(f"{folder}/hello.txt", "rb") as file:
        hello = file.read()
    slow = [asyncio.create_task(sends_slowly(port, hello)) for _ in range(CLIENTS)]
    slow += [asyncio.create_task(reads_slowly(port, content)) for _ in range(CLIENTS)]
    await asyncio.sleep(15)
    seconds = []
    quick = asyncio.create_task(asks_quickly(port, hello, seconds))
    sizes = memory_of(program)
    for done in await asyncio.gather(*slow, return_exceptions=True):
        expect(done is None, f"a slow client: {done!r}")
    quick.cancel()
    await asyncio.gather(quick, return_exceptions=True)
    os.remove(f"{folder}/slow.bin")
    median, most = statistics.median(seconds), max(seconds)
    print(f"{2 * CLIENTS} slow clients; a quick one asked {len(seconds)} times: {median * 1000:.0f} ms in the median, "
          f"{most * 1000:.0f} at most; {sum(sizes) / max(len(sizes), 1):.0f} KiB a connection")
    expect(len(sizes) >= 2 * CLIENTS, f"only {len(sizes)} connections at once")
    expect(median <= HALF and most <= ALL, "a quick client waits")
    sys.exit(1 if wrong else 0)


asyncio.run(main())
