"""What sends datagrams of hex lines over loopback."""
