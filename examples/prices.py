"""A script for a notebook, in cells: the entries of market data of a recording, as data, and a recording of others.

usage: PYTHONPATH=python python3 examples/prices.py TEMPLATES RECORDING

A line is the packet's number, the symbol, the type of the entry, its price and its size, as examples/prices.cpp prints it.
"""

# %% What is read: templates in JSON or XML, and packets, each behind its size (tools/pcap-packets makes a recording of a capture)
import decimal
import pathlib
import sys

import fastcat

templates = fastcat.Templates(pathlib.Path(sys.argv[1]))
recording = pathlib.Path(sys.argv[2])

# %% What the messages of each template have
columns = {name: [field.name for field in templates.fields(name)] for name in templates.names}
entries = [name for name in columns if "GroupMDEntries" in columns[name]]

# %% Messages are dicts, as they come
messages = list(fastcat.messages(templates, recording, packets=True))


# %% A row for each entry
def text(value):
    return "-" if value is None else format(value, "f") if isinstance(value, decimal.Decimal) else value


rows = [
    (message["packet"], *(text(entry.get(it, message["fields"].get(it))) for it in ("Symbol", "MDEntryType", "MDEntryPx", "MDEntrySize")))
    for message in messages
    if message["template"] in entries
    for entry in message["fields"]["GroupMDEntries"] or ()
]
for row in rows:
    print(*row)

# %% The same feed with each price a cent higher, as a canonical recording
for message in messages:
    for entry in message["fields"].get("GroupMDEntries") or ():
        if entry["MDEntryPx"] is not None:
            entry["MDEntryPx"] += decimal.Decimal("0.01")
higher = fastcat.write(templates, messages, packets=True)
print(f"{len(higher)} bytes, {fastcat.check(templates, higher, packets=True).messages} messages", file=sys.stderr)
