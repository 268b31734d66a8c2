"""What reads traces, ledgers and logs, and makes data and captures of them."""
