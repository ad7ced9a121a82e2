"""The command `sagas`."""

from __future__ import annotations

OVERVIEW = """\
usage: sagas COMMAND [ARGUMENT]...

Coordinate sagas, and inspect, operate and verify them. STORE is a SQLite file, or the
postgresql:// URL of a database.

Get started:
  demo                                         Show the dashboard with two hundred sagas
  new DIR                                      Create a project, in one of four languages

Inspect a store:
  store STORE list|show|log|plan|draw|export   Show sagas
  store STORE stats|definitions|nodes          Count sagas, and list nodes
  store STORE attention|stuck|pending          List what needs an operator, and what waits
  store STORE schedules|deliveries             List schedules and webhook deliveries
  store STORE check                            Check a program before you deploy it

Operate sagas:
  store STORE abort|complete|fail|retry|compensate|restart
                                               Request an action on a saga or a step
  store STORE resolve                          Mark sagas as resolved
  store STORE erase                            Erase the data of an ended saga
  store STORE pause|resume|pauses              Hold attempts back, and list pauses
  store STORE drain|undrain                    Move the shards of a node to others

Maintain a store:
  store STORE init|migrate                     Create or migrate the tables
  store STORE prune|own-blobs                  Delete ended sagas, and take over values
  store STORE audit|record                     Verify event logs and records of nodes

Run a service:
  serve STORE --definitions DIR                Serve a store over HTTP
  token FILE NAME ROLE...                      Create a token for a service

Look at failures before the first run:
  explain FILE|MODULE:NAME                     Show what each failure would undo, and its cost

Plan and verify with files:
  plan DEF CASE                                Compute a least-cost plan
  check DEF CASE ANSWER                        Verify a plan or a chain
  (none), with standard input                  Verify a plan: its parts, with lines --- between them
  draw DEF [CASE] [ANSWER]                     Draw a saga for Graphviz
  run DEF...                                   Run sagas by a script
  audit LOG [DEF]...                           Verify the event log of a run
  drive [DEF]...                               Execute sagas for another program

`sagas store --help`, and `sagas COMMAND --help` for each other command, list the options and
exit statuses. `sagas --version` prints the version.
"""
"""The whole help of the command."""
