"""What the scripts of tests/ and bench/ share: the programs and streams, readers of their own, and what goes wrong outside."""
