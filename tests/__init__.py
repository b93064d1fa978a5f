"""The scripts that `tests/run` drives, in a folder for each area, and what they share.

library     what scripts of several areas share, and in a folder of an area's name what that area alone uses
turns       whole requests with their replies, which answers/turns.py reads

answers     what the service answers, byte for byte, and what it refuses
documents   what is written for people: the documents, the description, the examples
operator    what an operator does: commands, units, machines, releases
pages       the pages of web/, in a real browser
process     the program as a process: its arguments, streams, memory and peers
proxy       nginx by the files of deploy/, in front of stores
store       the file of a store and its log: stops, failing disks, older schemas

Each file of an area is a script. It begins with what it shows, and takes names of its tests:
python3 -m tests.store.disk each_error
"""
