#!/usr/bin/env python3
"""Validates lines of JSON for whoever connects: a server that goes on answering while checks run.

    examples/asyncio_validate.py --schema examples/person.schema.json --port 8000

Each line that a client sends is an instance, and gets a line: the validator's output in the format flag, or why there
is none. Checks run on threads (`asyncio.to_thread`), which share the schemas: Python's lock is released during a check.
"""
import argparse
import asyncio
import json

import jschema

URI = "schema:///"


async def answer(schemas, line):
    """The line for an instance."""
    try:
        return await asyncio.to_thread(schemas.output_text, URI, line, format="flag")
    except jschema.Refused as refused:
        return json.dumps({"refused": refused.kind, "place": refused.place}).encode() + b"\n"


async def serve(schemas, host, port):
    """Serves until it is cancelled. The first line on standard output is the port."""
    async def connected(reader, writer):
        while line := await reader.readline():
            writer.write(await answer(schemas, line))
            await writer.drain()
        writer.close()

    server = await asyncio.start_server(connected, host, port)
    print(server.sockets[0].getsockname()[1], flush=True)
    async with server:
        await server.serve_forever()


def main():
    parser = argparse.ArgumentParser(description="Validates lines of JSON for whoever connects.")
    parser.add_argument("--schema", required=True, help="the file of the schema")
    parser.add_argument("--host", default="127.0.0.1")
    parser.add_argument("--port", type=int, default=0, help="the port (default: one that is free)")
    given = parser.parse_args()
    with open(given.schema, "rb") as file, jschema.Schemas({URI: file.read()}) as schemas:
        try:
            asyncio.run(serve(schemas, given.host, given.port))
        except KeyboardInterrupt:
            pass


if __name__ == "__main__":
    main()
