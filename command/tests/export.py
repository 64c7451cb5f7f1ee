"""export.py PROGRAM LOG...: show beside evtxexport, record by record: the same number, time, event ID, provider and computer, and the same
strings in the same order. What evtxexport calls strings are the values of what stands beside System, without attributes.

The differences that are left, each counted, and none but these:
  form      evtxexport writes a value of another type in another way: a number in hex by its width in small letters, a time with nine digits.
  null      it leaves out what is null.
  source    where a provider has an EventSourceName too, it prints that one.
  unread    a record that show refuses, since a value in its definition is of a type that does not exist; evtxexport reads on.
"""

import datetime
import re
import subprocess
import sys

from program import Run, end, hold

program, *logs = sys.argv[1:]
FIELD = re.compile(rb"^(Event number|Written time|Event level|User security identifier|Computer name|Source name|Event identifier|Number of strings|String: \d+)\t+: ",
                   re.M)
differences = {"form": 0, "null": 0, "source": 0, "unread": 0}


def exported(log):
    """evtxexport's records: a name and a value for each line; a value may go over several."""
    out = subprocess.run(["evtxexport", log], capture_output=True).stdout
    records, parts = [], FIELD.split(out)
    for name, value in zip(parts[1::2], parts[2::2]):
        if name == b"Event number":
            records.append({"strings": []})
        value = value.decode("utf-8", "replace")
        if name.startswith(b"String"):
            records[-1]["strings"].append(value.rstrip("\n"))
        else:
            records[-1][name.decode()] = value.strip()
    return records


def written(time):
    """2012-03-14T04:17:43.3545627Z as evtxexport writes it."""
    at = datetime.datetime.strptime(time[:19], "%Y-%m-%dT%H:%M:%S")
    return f"{at:%b %d, %Y %H:%M:%S}.{time[20:27]}00 UTC"


def as_exported(field):
    """The strings of a value."""
    differences["null"] += field["value"] is None
    if field["value"] is None or field["type"] == "String array":
        return field["value"] or []
    return [one_exported(field, field["value"])]


def one_exported(field, value):
    if field["type"] in ("HexInt32", "HexInt64"):
        differences["form"] += 1
        return "0x" + value[2:].lower()
    if field["type"] in ("FILETIME", "SYSTEMTIME"):
        differences["form"] += 1
        return value[:-1] + "00Z"
    return value


def same(name, row, theirs):
    ours = {}
    for field in row["fields"]:
        ours.setdefault(field["path"], field["value"])
    said = [field for field in row["fields"] if not field["path"].startswith("Event/System/") and "/@" not in field["path"] and field["type"] != "BinXml"]
    strings = [text for field in said for text in as_exported(field)]
    event = ours["Event/System/EventID"]
    hold(theirs["Event identifier"] == f"0x{int(event):08x} ({event})", name, "event ID", event, theirs["Event identifier"])
    provider = ours["Event/System/Provider/@Name"]
    if theirs["Source name"] != provider:
        provider = ours.get("Event/System/Provider/@EventSourceName")
        differences["source"] += 1
    hold(theirs["Source name"] == provider, name, "provider", theirs["Source name"])
    hold(theirs["Computer name"] == ours["Event/System/Computer"], name, "computer", theirs["Computer name"])
    hold([text.rstrip("\n") for text in strings] == theirs["strings"], name, "strings", strings, theirs["strings"])


records = 0
for log in logs:
    rows = [row for row in Run(program, "show", "--json", "--live", log).json() if row["what"] == "live"]
    theirs = exported(log)
    hold(len(rows) == len(theirs), log, len(rows), "records, and by evtxexport", len(theirs))
    for row, their in zip(rows, theirs):
        name = f"{log}: record {row['id']}:"
        hold(their["Event number"] == str(row["id"]) and their["Written time"] == written(row["time"]), name, row["time"], their)
        if "fields" in row:
            same(name, row, their)
        else:
            hold(row["number"] == 7, name, "refused", row["number"])
            differences["unread"] += 1
        records += 1
end(f"{records} records beside evtxexport's, with differences in " + ", ".join(f"{name} {count}" for name, count in differences.items()))
