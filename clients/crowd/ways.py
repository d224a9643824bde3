"""Ways to the server at a port: `ways.py NAME PORT COUNT OWN`. Each is at the port OWN, or at a free one if that is 0; start_ways of
parts.sh says more.
"""

import asyncio, os, sys

name, target, count, own = sys.argv[1], *map(int, sys.argv[2:])


class Way:
    async def open(self, own):
        self.listener = await asyncio.start_server(self.enter, "127.0.0.1", own)
        self.port = self.listener.sockets[0].getsockname()[1]
        self.connections = []
        self.is_heard = asyncio.Event()

    async def enter(self, reader, writer):
        try:
            server_reader, server_writer = await asyncio.open_connection("127.0.0.1", target)
        except ConnectionError:
            return writer.close()
        self.connections += [writer, server_writer]
        await asyncio.gather(self.pass_on(reader, server_writer, True), self.pass_on(server_reader, writer, False))

    async def pass_on(self, reader, writer, is_client):
        try:
            while data := await reader.read(65536):
                while os.path.exists(name + ".hold"):
                    await asyncio.sleep(0.05)
                writer.write(data)
                await writer.drain()
                if is_client:
                    self.is_heard.set()
        except ConnectionError:
            pass
        writer.close()

    async def close(self, seconds):
        self.is_heard.clear()
        await self.is_heard.wait()
        await asyncio.sleep(0.02)
        self.listener.close()
        for writer in self.connections:
            writer.transport.abort()
        await asyncio.sleep(seconds)
        await self.open(self.port)


async def main():
    ways = [Way() for _ in range(count)]
    for way in ways:
        await way.open(own)
    with open(name + ".new", "w") as file:
        print(*(way.port for way in ways), file=file)
    os.rename(name + ".new", name + ".port")
    while True:
        await asyncio.sleep(0.1)
        if os.path.exists(name + ".close"):
            seconds = float(open(name + ".close").read())
            await asyncio.gather(*(way.close(seconds) for way in ways))
            os.remove(name + ".close")


asyncio.run(main())
