"""A relay between the nodes of a cluster of mfpxd processes, which loses, repeats, reorders, changes and forges packets.

On a stream a packet comes behind its length, four bytes with the highest first. It begins with the run's name, 16 bytes.
"""
import asyncio
import collections
import os
import random
import threading

NAME = 16
# How many of a hundred packets.
LOST, REPEATED, REORDERED, CHANGED, FORGED = 10, 5, 5, 3, 2


class Relay:
    """A port for each node that sends and each that hears, and what was done to the packets between them."""

    def __init__(self, ports, targets, seed):
        """Of each pair of nodes `ports` has the port to listen to, and `targets` of each node the port of its own."""
        self.random, self.done = random.Random(seed), collections.Counter()
        self.loop = asyncio.new_event_loop()
        for (_, hears), port in ports.items():
            serve = asyncio.start_server(self.passing_to(targets[hears]), "127.0.0.1", port)
            self.loop.run_until_complete(serve)
        threading.Thread(target=self.loop.run_forever, daemon=True).start()

    def passing_to(self, target):
        async def passing(reader, writer):
            try:
                _, onward = await asyncio.open_connection("127.0.0.1", target)
            except OSError:
                writer.close()
                return
            try:
                await self.pass_on(reader, onward)
            except (OSError, asyncio.IncompleteReadError):
                pass
            onward.close()
            writer.close()

        return passing

    async def pass_on(self, reader, onward):
        held = []
        while True:
            length = await reader.readexactly(4)
            packet = await reader.readexactly(int.from_bytes(length, "big"))
            for it in self.made_of(packet, held):
                onward.write(len(it).to_bytes(4, "big") + it)
            await onward.drain()

    def made_of(self, packet, held):
        """What is passed on where this packet comes, and one may be held back."""
        drawn, before = self.random.randrange(100), [held.pop()] if held else []
        limit = 0
        for name, share in (("lost", LOST), ("repeated", REPEATED), ("reordered", REORDERED), ("changed", CHANGED), ("forged", FORGED)):
            limit += share
            if drawn < limit:
                self.done[name] += 1
                break
        else:
            name = "passed"
        if name == "lost":
            return before
        if name == "repeated":
            return [packet, packet, *before]
        if name == "reordered" and not before:
            held.append(packet)
            return []
        if name == "changed":
            place = self.random.randrange(len(packet))
            other = bytearray(packet)
            other[place] ^= 1 << self.random.randrange(8)
            return [bytes(other), *before]
        if name == "forged":
            # The run's name, no digest of the key's, and the frame.
            return [packet[:NAME] + os.urandom(32) + packet[NAME + 32 :], packet, *before]
        return [packet, *before]
