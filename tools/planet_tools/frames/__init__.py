"""Frames, chunks, programs and values as trees: what reads, judges and prints them, and writes chunks.

Frames are built by the layer for scapy alone (tools/scapy/planet.py, which `layer` finds), whose fields stand on these
trees."""
