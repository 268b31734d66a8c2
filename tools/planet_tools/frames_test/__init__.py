"""What tries the readers of frames, traces and logs: the dissector, the layer for scapy, exports and captures."""
